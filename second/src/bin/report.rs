//! Plays the scenarios of the files named and writes their sheet to standard output.

use std::env::args_os;
use std::ffi::{OsStr, OsString};
use std::fs::File;
use std::io::{self, stdout, Read, Write};
use std::os::unix::ffi::OsStrExt;

use second::measure::measure;
use second::scenario::LONGEST_SCENARIO;
use second::sheet::{check_number, refused_text, text, Entry, NoRun};

fn main() {
    let names: Vec<OsString> = args_os().skip(1).collect();
    let _ = stdout().lock().write_all(&report(&names));
}

/// "Where more than 256 files are named it writes the one line `REFUSED 23 0` and nothing else."
fn report(names: &[OsString]) -> Vec<u8> {
    match check_number(names.len()) {
        Ok(()) => text(&names.iter().map(|name| entry(name)).collect::<Vec<_>>()),
        Err(refused) => refused_text(&refused),
    }
}

/// "a run's name is its file's name as it was given".
fn entry(name: &OsStr) -> Entry {
    let run = match read_file(name) {
        Ok(input) => measure(&input).map_err(NoRun::Refused),
        Err(_) => Err(NoRun::Unreadable),
    };
    Entry {
        name: name.as_bytes().to_vec(),
        run,
    }
}

fn read_file(name: &OsStr) -> io::Result<Vec<u8>> {
    let mut input = Vec::new();
    // One byte above the longest scenario is enough to refuse a longer one.
    File::open(name)?
        .take(LONGEST_SCENARIO as u64 + 1)
        .read_to_end(&mut input)?;
    Ok(input)
}

#[cfg(test)]
mod tests {
    use super::*;
    use second::refusal::Refusal;
    use second::scenario::Refused;

    fn run_of(name: &str) -> Result<u32, NoRun> {
        let entry = entry(OsStr::new(name));
        assert_eq!(entry.name, name.as_bytes());
        entry.run.map(|run| run.longest_wait)
    }

    fn refused(refusal: Refusal, offset: usize) -> Result<u32, NoRun> {
        Err(NoRun::Refused(Refused { refusal, offset }))
    }

    #[test]
    fn a_file_has_a_run_or_its_refusal() {
        assert_eq!(run_of("../examples/worked.scenario"), Ok(14));
        let cut = refused(Refusal::ScenarioEnds, 24);
        assert_eq!(run_of("../examples/cut.scenario"), cut);
    }

    #[test]
    fn a_file_above_65536_bytes_is_refused_for_its_length() {
        let long = refused(Refusal::ScenarioTooLong, 0);
        assert_eq!(run_of("misreadings.txt"), long);
    }

    #[test]
    fn what_cannot_be_opened_or_read() {
        for name in ["", ".", "src/", "missing", "Cargo.toml/missing"] {
            assert_eq!(run_of(name), Err(NoRun::Unreadable));
        }
    }

    #[test]
    fn more_than_256_files_are_refused() {
        let names = vec![OsString::from("missing"); 257];
        assert_eq!(report(&names), b"REFUSED 23 0\n");
        let heading_sums_and_highest = 3;
        let lines = |names| report(names).split(|&byte| byte == b'\n').count() - 1;
        assert_eq!(lines(&names[..256]), 256 + heading_sums_and_highest);
        assert_eq!(lines(&[]), heading_sums_and_highest);
    }

    #[test]
    fn a_refused_or_unreadable_one_does_not_stop_the_others() {
        let names = [
            "missing",
            "../examples/cut.scenario",
            "../examples/rtdg.scenario",
        ];
        let written = report(&names.map(OsString::from));
        assert!(written.ends_with(b"\nhighest loss 4/7  ../examples/rtdg.scenario\n"));
    }
}
