//! compare: plays cases through two programs and compares what they write.

use compare::comparing::{differs, play, Pair, Programs};
use compare::sets::{files, seeded, tables, Set, COUNTS, SEED};
use std::process::ExitCode;

const USAGE: &str = "compare: plays cases through pairs of programs and compares what they write to standard output

  compare all PARTS PROGRAMS FILE..     the tables, the files, and one of so many parts of seeded cases
  compare differs PROGRAMS FILE..       the same, all of them, until the first that differs
  compare seeded SEED COUNT PROGRAMS    so many seeded cases of each kind

PROGRAMS are ten paths: BUSRUN SECOND DRIVE REPLAY BUSSHEET REPORT BATCH TALLY BUSLAYOUT PLAN. BUSRUN and SECOND take
a scenario on standard input, DRIVE and REPLAY a script, BATCH and TALLY a batch of runs, BUSLAYOUT and PLAN a layout or,
with '--show', a scenario; BUSSHEET and REPORT take scenario files as arguments. Of a wrong layout, what is written to
standard error is compared: BUSLAYOUT tells the fault by words of scripts/layout-faults.table, PLAN by its number.
With 'differs' two programs may be '-', and the cases for them are passed over. A FILE that ends in '.script' is a
script, one that ends in '.layout' a layout, any other a scenario. The last line of 'all' and 'seeded' is
'N passed, M failed'.
Exit status: 0 no case failed, or with 'differs' one did; 1 the opposite, or a file cannot be read; 2 bad usage.
";

fn main() -> ExitCode {
    let words: Vec<String> = std::env::args().skip(1).collect();
    let words: Vec<&str> = words.iter().map(String::as_str).collect();
    ExitCode::from(match done(&words) {
        Some(Ok(good)) => u8::from(!good),
        Some(Err(sentence)) => {
            eprintln!("compare: {sentence}");
            1
        }
        None => {
            eprint!("{USAGE}");
            2
        }
    })
}

/// Does what the words say; nothing for words that say nothing.
fn done(words: &[&str]) -> Option<Result<bool, String>> {
    Some(match words {
        ["all", parts, programs @ ..] => {
            let (programs, paths) = taken(programs)?;
            all(parts.parse().ok().filter(|parts| *parts > 0)?, paths).map(|sets| play(&sets, &programs))
        }
        ["differs", programs @ ..] => {
            let (programs, paths) = taken(programs)?;
            all(1, paths).map(|sets| differs(&sets, &programs))
        }
        ["seeded", seed, count, programs @ ..] => {
            let count = count.parse().ok()?;
            Ok(play(&seeded(seed.parse().ok()?, [count; 6]), &taken(programs)?.0))
        }
        _ => return None,
    })
}

/// What the gate plays, with one of so many parts of the seeded cases.
fn all(parts: usize, paths: &[&str]) -> Result<Vec<Set>, String> {
    let counts = COUNTS.map(|count| count / parts);
    Ok([tables(), files(paths)?, seeded(SEED, counts)].into_iter().flatten().collect())
}

/// The programs, two of each kind, and the words after them.
fn taken<'a, 'b>(words: &'a [&'b str]) -> Option<(Programs, &'a [&'b str])> {
    let (programs, rest) = words.split_at_checked(10)?;
    let pair = |at: usize| Pair { first: programs[at].to_string(), second: programs[at + 1].to_string() };
    Some(([0, 2, 4, 6, 8].map(pair), rest))
}
