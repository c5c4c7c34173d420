//! Reads a batch of runs from standard input and writes its sheet to standard output.

use std::io::{stdin, stdout, Read, Write};

use second::batch::{read_batch, LONGEST_BATCH};
use second::sheet::{text, without_names};

fn main() {
    let mut input = Vec::new();
    let _ = stdin()
        .lock()
        .take(LONGEST_BATCH as u64)
        .read_to_end(&mut input);
    let batch = read_batch(&input);
    let _ = stdout().lock().write_all(&text(&without_names(&batch)));
}
