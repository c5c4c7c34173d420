//! bench: times busrun beside the second engine on fixed scenarios; writes these scenarios to a folder.

mod counting;
mod machine;
mod measuring;
mod room;
mod scenarios;
#[cfg(test)]
mod shown;
mod table;
mod timing;

use compare::comparing::Pair;
use counting::Counter;
use machine::Load;
use room::Room;
use std::path::Path;
use std::process::ExitCode;
use table::page;

const USAGE: &str = "bench: times two programs on fixed scenarios

  bench BUSRUN SECOND   plays the scenarios through both and prints a table of times, as markdown
  bench write FOLDER    writes the scenarios to FOLDER: a.scenario and so on

BUSRUN and SECOND are paths of programs that take a scenario on standard input.
Exit status: 0 done, whatever the times are; 1 the listings differ, or a program or file fails; 2 bad usage.
";

fn main() -> ExitCode {
    let words: Vec<String> = std::env::args().skip(1).collect();
    let words: Vec<&str> = words.iter().map(String::as_str).collect();
    let done = match words.as_slice() {
        ["write", folder] => write(Path::new(folder)),
        [busrun, second] => bench(busrun, second),
        _ => {
            eprint!("{USAGE}");
            return ExitCode::from(2);
        }
    };
    match done {
        Ok(()) => ExitCode::SUCCESS,
        Err(sentence) => {
            eprintln!("bench: {sentence}");
            ExitCode::from(1)
        }
    }
}

/// Measures all scenarios and prints what was found.
fn bench(busrun: &str, second: &str) -> Result<(), String> {
    let pair = Pair {
        first: busrun.to_string(),
        second: second.to_string(),
    };
    let load = Load::now();
    let machine = machine::lines(&load);
    let room = Room::new("run")?;
    let counter = Counter::found(&room)?;
    let rows = measuring::rows(&pair, counter, &room)?;
    let notes = measuring::notes(&pair, counter);
    print!("{}", page(&machine, &rows, &notes, load.trusted()));
    Ok(())
}

/// Writes each scenario to a file of the folder.
fn write(folder: &Path) -> Result<(), String> {
    for fixed in scenarios::all() {
        let path = folder.join(format!("{}.scenario", fixed.letter));
        room::write(&path, &fixed.scenario.bytes())?;
    }
    Ok(())
}
