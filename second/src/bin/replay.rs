//! Reads a script of calls from standard input, plays it, and writes the answers and states.

use std::io::{stdin, stdout, Read};

use second::drive::{drive, LONGEST_SCRIPT};
use second::lines::Lines;

fn main() {
    let mut script = Vec::new();
    let _ = stdin()
        .lock()
        .take(LONGEST_SCRIPT as u64)
        .read_to_end(&mut script);
    let mut lines = Lines::new(stdout().lock());
    drive(&script, &mut lines);
    drop(lines.finish());
}
