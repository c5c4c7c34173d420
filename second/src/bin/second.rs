//! Reads a scenario from standard input and writes its listing to standard output.

use std::io::{stdin, stdout, Read};

use second::lines::Lines;
use second::listing::list;
use second::scenario::LONGEST_SCENARIO;

fn main() {
    let mut input = Vec::new();
    // One byte above the longest scenario is enough to refuse a longer one.
    let _ = stdin()
        .lock()
        .take(LONGEST_SCENARIO as u64 + 1)
        .read_to_end(&mut input);
    let mut lines = Lines::new(stdout().lock());
    list(&input, &mut lines);
    drop(lines.finish());
}
