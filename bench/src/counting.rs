//! Counting the instructions that a program takes for an input, with a tool of the machine.

use crate::room::{self, emptied, opened, Room};
use std::fs::{self, File};
use std::io::Read;
use std::process::{Child, Command, ExitStatus};
use std::thread;
use std::time::{Duration, Instant};

/// How long valgrind may take for one count; under it a program is some fifty times slower, or worse.
const LIMIT: Duration = Duration::from_secs(60);

/// The time between two looks at a count that is under way.
const PAUSE: Duration = Duration::from_millis(10);

/// A tool that counts instructions.
#[derive(Clone, Copy, Debug, PartialEq, Eq)]
pub enum Counter {
    Perf,
    Valgrind,
}

impl Counter {
    /// The first that gives a number on this machine.
    pub fn found(room: &Room) -> Result<Option<Counter>, String> {
        room::write(&room.input(), b"")?;
        let mut all = [Counter::Perf, Counter::Valgrind].into_iter();
        Ok(all.find(|counter| counter.count("true", room).is_some()))
    }

    /// How many instructions a program takes for the input; none where that cannot be told.
    pub fn count(self, program: &str, room: &Room) -> Option<u64> {
        let mut child = self.started(program, room)?;
        let status = ended(&mut child, self.limit())?;
        let told = fs::read_to_string(room.told()).ok()?;
        status.success().then(|| self.number(&told))?
    }

    fn started(self, program: &str, room: &Room) -> Option<Child> {
        let (tool, words) = self.command();
        Command::new(tool)
            .args(words)
            .arg(program)
            .stdin(opened(&room.input()).ok()?)
            .stdout(emptied(&room.output()).ok()?)
            .stderr(emptied(&room.told()).ok()?)
            .spawn()
            .ok()
    }

    /// The tool and its words; the program follows.
    fn command(self) -> (&'static str, &'static [&'static str]) {
        match self {
            Counter::Perf => ("perf", &["stat", "-x,", "-e", "instructions:u", "--"]),
            Counter::Valgrind => ("valgrind", &["--tool=callgrind", "--callgrind-out-file=/dev/null"]),
        }
    }

    /// Under perf a program is as quick as without.
    fn limit(self) -> Duration {
        match self {
            Counter::Perf => Duration::MAX,
            Counter::Valgrind => LIMIT,
        }
    }

    /// The count in what the tool told.
    fn number(self, told: &str) -> Option<u64> {
        match self {
            Counter::Perf => perf_number(told),
            Counter::Valgrind => valgrind_number(told),
        }
    }
}

/// The first field of each line on instructions: a machine with two sorts of cores has two.
fn perf_number(told: &str) -> Option<u64> {
    let lines = told.lines().filter(|line| line.contains("instructions"));
    let counts = lines.filter_map(|line| line.split(',').next()?.parse::<u64>().ok());
    counts.reduce(|sum, count| sum + count)
}

fn valgrind_number(told: &str) -> Option<u64> {
    let (_, after) = told.split_once("Collected : ")?;
    after.lines().next()?.trim().parse().ok()
}

/// How a child ended; none where it was stopped at the limit.
fn ended(child: &mut Child, limit: Duration) -> Option<ExitStatus> {
    let start = Instant::now();
    loop {
        let status = child.try_wait().ok()?;
        if status.is_some() {
            return status;
        }
        if start.elapsed() > limit {
            let _ = child.kill();
            let _ = child.wait();
            return None;
        }
        thread::sleep(PAUSE);
    }
}

/// Yes for a file that a shell or another program reads, and the machine does not.
pub fn is_script(program: &str) -> bool {
    let mut first = [0; 2];
    let read = File::open(program).and_then(|mut file| file.read_exact(&mut first));
    read.is_ok() && first == *b"#!"
}

/// What is said under the table.
pub fn note(counter: Option<Counter>) -> String {
    match counter {
        Some(Counter::Perf) => "Instructions were counted by perf (instructions:u).".to_string(),
        Some(Counter::Valgrind) => format!(
            "Instructions were counted by valgrind (callgrind); '-' where that was not done after {} seconds.",
            LIMIT.as_secs()
        ),
        None => {
            "Instructions were not counted: this machine has neither a perf nor a valgrind that counts.".to_string()
        }
    }
}

#[cfg(test)]
mod tests {
    use super::*;

    #[test]
    fn counts_of_perf() {
        assert_eq!(perf_number("123,,instructions:u,456,100.00,,\n"), Some(123));
        assert_eq!(
            perf_number("1,,cpu_atom/instructions:u/,4,9.00,,\n2,,cpu_core/instructions:u/,4,91.00,,\n"),
            Some(3)
        );
        assert_eq!(perf_number("<not supported>,,instructions:u,0,100.00,,\n"), None);
        assert_eq!(perf_number(""), None);
    }

    #[test]
    fn counts_of_valgrind() {
        let told = "==7== Events    : Ir\n==7== Collected : 127772\n==7== \n==7== I   refs:      127,772\n";
        assert_eq!(valgrind_number(told), Some(127_772));
        assert_eq!(valgrind_number("==7== Command: true\n"), None);
    }

    #[test]
    fn a_count_is_stopped_at_the_limit() {
        let mut child = Command::new("sleep").arg("60").spawn().unwrap();
        assert_eq!(ended(&mut child, Duration::ZERO), None);
        let mut child = Command::new("true").spawn().unwrap();
        assert!(ended(&mut child, LIMIT).unwrap().success());
    }

    #[test]
    fn scripts_are_known() {
        let room = Room::new("scripts").unwrap();
        room::write(&room.input(), b"#!/bin/sh\n").unwrap();
        assert!(is_script(room.input().to_str().unwrap()));
        room::write(&room.input(), b"\x7fELF").unwrap();
        assert!(!is_script(room.input().to_str().unwrap()));
        assert!(!is_script("/nowhere/at/all"));
    }
}
