//! Reads a layout from standard input and writes its scenario to standard output; a wrong one has one line
//! on standard error, `LINE FAULT`. With `--show` it reads a scenario and writes its layout; a refused one
//! has one line on standard error, `REFUSED number offset`.

use std::env::args_os;
use std::io::{stderr, stdin, stdout, Read, Write};
use std::process::ExitCode;

use second::layout::read_layout;
use second::lines::Lines;
use second::scenario::{read, LONGEST_SCENARIO};
use second::show::show;

fn main() -> ExitCode {
    let words: Vec<_> = args_os().skip(1).collect();
    let written = match &words[..] {
        [] => scenario_of(&input(u64::MAX)),
        // One byte above the longest scenario is enough to refuse a longer one.
        [word] if word == "--show" => layout_of(&input(LONGEST_SCENARIO as u64 + 1)),
        _ => Err(b"usage: plan [--show]\n".to_vec()),
    };
    match written {
        Ok(bytes) => {
            let _ = stdout().lock().write_all(&bytes);
            ExitCode::SUCCESS
        }
        Err(line) => {
            let _ = stderr().lock().write_all(&line);
            ExitCode::FAILURE
        }
    }
}

/// Standard input, up to so many bytes.
fn input(most: u64) -> Vec<u8> {
    let mut input = Vec::new();
    let _ = stdin().lock().take(most).read_to_end(&mut input);
    input
}

/// The bytes of a layout's scenario, or a line of the line that is wrong and its fault.
fn scenario_of(text: &[u8]) -> Result<Vec<u8>, Vec<u8>> {
    read_layout(text).map_err(|wrong| {
        let mut lines = Lines::new(Vec::new());
        lines
            .number(wrong.line as u64)
            .number(wrong.fault.number())
            .close();
        lines.finish()
    })
}

/// The layout of a scenario, or a line of its refusal.
fn layout_of(input: &[u8]) -> Result<Vec<u8>, Vec<u8>> {
    let mut lines = Lines::new(Vec::new());
    match read(input) {
        Ok(scenario) => {
            show(&scenario, &mut lines);
            Ok(lines.finish())
        }
        Err(refused) => {
            lines
                .word("REFUSED")
                .number(refused.refusal.number())
                .number(refused.offset as u64)
                .close();
            Err(lines.finish())
        }
    }
}

#[cfg(test)]
mod tests {
    use super::*;

    #[test]
    fn a_layout_has_its_scenario_or_the_line_and_the_fault() {
        let text = b"bus PRI D 4 A 8 q 1\nstation address 1\nrun steps 3\n";
        let bytes = scenario_of(text).unwrap();
        assert_eq!(bytes.len(), 30);
        let wrong = &text[..text.len() - 3];
        assert_eq!(scenario_of(wrong).unwrap_err(), b"3 213\n");
        assert_eq!(layout_of(&bytes).unwrap()[..20], text[..20]);
    }

    #[test]
    fn a_refused_scenario_has_its_number_and_offset() {
        let cut = include_bytes!("../../../examples/cut.scenario");
        assert_eq!(layout_of(cut).unwrap_err(), b"REFUSED 18 24\n");
        assert_eq!(layout_of(&[0; 65_537]).unwrap_err(), b"REFUSED 22 0\n");
    }
}
