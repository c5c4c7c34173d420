//! The time that a program takes for an input.

use crate::room::{emptied, opened};
use std::path::Path;
use std::process::Command;
use std::time::{Duration, Instant};

/// The wall time from a program's start to its end, with standard input from a file and standard output to a file.
pub fn time(program: &str, input: &Path, output: &Path) -> Result<Duration, String> {
    let mut command = Command::new(program);
    command.stdin(opened(input)?).stdout(emptied(output)?);
    let start = Instant::now();
    let status = command.status();
    let taken = start.elapsed();
    match status {
        Err(fault) => Err(format!("{program} does not start: {fault}")),
        Ok(status) if !status.success() => Err(format!("{program} ended with {status}")),
        Ok(_) => Ok(taken),
    }
}

#[cfg(test)]
mod tests {
    use super::*;
    use crate::room::{write, Room};
    use std::fs;

    #[test]
    fn input_and_output_are_files() {
        let room = Room::new("timed").unwrap();
        let (input, output) = (room.input(), room.output());
        write(&input, b"some words").unwrap();
        write(&output, b"more words that were there before").unwrap();
        time("cat", &input, &output).unwrap();
        assert_eq!(fs::read(&output).unwrap(), b"some words");
    }

    #[test]
    fn the_time_lasts_to_the_end_of_the_program() {
        let room = Room::new("lasts").unwrap();
        write(&room.input(), b"sleep 0.1").unwrap();
        assert!(time("sh", &room.input(), &room.output()).unwrap() >= Duration::from_millis(100));
    }

    #[test]
    fn failures_are_told() {
        let null = Path::new("/dev/null");
        assert!(time("/nowhere/at/all", null, null)
            .unwrap_err()
            .contains("does not start"));
        assert!(time("false", null, null).unwrap_err().contains("ended with"));
    }
}
