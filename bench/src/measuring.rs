//! The measurement: each scenario through both programs, for the listings, the times and the instructions.

use crate::counting::{self, is_script, Counter};
use crate::room::{self, Room};
use crate::scenarios::{self, Fixed};
use crate::table::Row;
use crate::timing::time;
use compare::comparing::Pair;
use std::time::Duration;

/// How often each program is timed; the best counts.
const ROUNDS: usize = 5;

/// A row for each scenario, or a sentence that says why there is none.
pub fn rows(pair: &Pair, counter: Option<Counter>, room: &Room) -> Result<Vec<Row>, String> {
    scenarios::all()
        .iter()
        .map(|fixed| {
            eprintln!("bench: playing {}: {}", fixed.letter, fixed.words);
            row(fixed, pair, counter, room)
        })
        .collect()
}

fn row(fixed: &Fixed, pair: &Pair, counter: Option<Counter>, room: &Room) -> Result<Row, String> {
    let bytes = fixed.scenario.bytes();
    if let Some(sentence) = pair.fault(&bytes, &[]) {
        return Err(format!("scenario {} is not timed: {sentence}", fixed.letter));
    }
    room::write(&room.input(), &bytes)?;
    Ok(Row {
        letter: fixed.letter,
        words: fixed.words,
        slots: fixed.scenario.steps,
        times: best(pair, room)?,
        counts: [&pair.first, &pair.second].map(|program| count(program, counter?, room)),
    })
}

/// The best time of each program. In each round both run, one after the other.
fn best(pair: &Pair, room: &Room) -> Result<[Duration; 2], String> {
    let mut best = [Duration::MAX; 2];
    for _ in 0..ROUNDS {
        for (best, program) in best.iter_mut().zip([&pair.first, &pair.second]) {
            *best = time(program, &room.input(), &room.output())?.min(*best);
        }
    }
    Ok(best)
}

/// A program's instructions for the input. Those of a script would be the shell's.
fn count(program: &str, counter: Counter, room: &Room) -> Option<u64> {
    if is_script(program) {
        return None;
    }
    counter.count(program, room)
}

/// What is said under the table.
pub fn notes(pair: &Pair, counter: Option<Counter>) -> Vec<String> {
    let mut notes = vec![format!(
        "A slot is one probe. The time is the wall time of the whole program, the best of {ROUNDS} rounds."
    )];
    if is_script(&pair.first) {
        notes.push(
            "busrun was started by a script: its time has that start in it, and its instructions are not counted."
                .to_string(),
        );
    }
    notes.push(counting::note(counter));
    notes
}

#[cfg(test)]
mod tests {
    use super::*;
    use std::fs;

    fn pair(first: &str, second: &str) -> Pair {
        Pair {
            first: first.to_string(),
            second: second.to_string(),
        }
    }

    #[test]
    fn listings_that_differ_are_not_timed() {
        let room = Room::new("differ").unwrap();
        let sentence = rows(&pair("cat", "wc"), None, &room).err().unwrap();
        assert!(sentence.starts_with("scenario a is not timed: line 1: "), "{sentence}");
    }

    #[test]
    fn the_programs_are_timed_on_the_scenario() {
        let room = Room::new("scenario").unwrap();
        let fixed = &scenarios::all()[0];
        row(fixed, &pair("cat", "cat"), None, &room).unwrap();
        assert_eq!(fs::read(room.output()).unwrap(), fixed.scenario.bytes());
    }

    #[test]
    fn the_first_time_is_that_of_the_first_program() {
        let room = Room::new("order").unwrap();
        room::write(&room.input(), b"sleep 0.1").unwrap();
        let [slow, quick] = best(&pair("sh", "cat"), &room).unwrap();
        assert!(slow > quick);
    }

    /// In the first and in the last round the program sleeps.
    #[test]
    fn the_best_of_the_rounds_counts() {
        let room = Room::new("best").unwrap();
        let rounds = room.told().display().to_string();
        let words = format!("echo >>'{rounds}'; case $(wc -l <'{rounds}') in 1 | {ROUNDS}) sleep 0.5 ;; esac");
        room::write(&room.input(), words.as_bytes()).unwrap();
        let [best, _] = best(&pair("sh", "cat"), &room).unwrap();
        assert!(best < Duration::from_millis(500));
    }
}
