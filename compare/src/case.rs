//! A case: an input, and what its output has to show so that the case is what its name says.

use std::fmt::Display;

/// What an input is: a scenario, for `busrun` and `second`; a script of calls, for `drive` and `replay`; a batch of scenario
/// files, for `bussheet` and `report`; a batch of runs in bytes, for `batch` and `tally`; a layout, for `buslayout` and `plan`;
/// or a scenario to be shown as a layout, for the same two.
#[derive(Clone, Copy, Debug, PartialEq, Eq)]
pub enum Kind {
    Scenario,
    Script,
    Files,
    Runs,
    Layout,
    Shown,
}

impl Kind {
    /// The place of the two programs for it among all.
    pub fn place(self) -> usize {
        (self as usize).min(Kind::Layout as usize)
    }
}

/// An input with its name, and what its output shows. The input is on standard input; files are named as arguments.
#[derive(Clone)]
pub struct Case {
    pub name: String,
    pub input: Vec<u8>,
    pub files: Vec<File>,
    pub shows: Vec<Shows>,
}

/// A file that is named as an argument, and what is there by that name.
#[derive(Clone, Debug, PartialEq, Eq, PartialOrd, Ord)]
pub struct File {
    pub name: Vec<u8>,
    pub holds: Holds,
}

/// What is there by a file's name.
#[derive(Clone, Debug, PartialEq, Eq, PartialOrd, Ord)]
pub enum Holds {
    Bytes(Vec<u8>),
    Folder,
    Nothing,
}

/// What an output has to show.
#[derive(Clone, Debug, PartialEq, Eq)]
pub enum Shows {
    /// This and nothing else.
    Whole(String),
    /// This line.
    Line(String),
    /// Never this line.
    Lacks(String),
    /// A line that begins so.
    Begins(&'static str),
    /// Of a listing: a closing line, whose last number is that of the arrivals refused with 14 or 15.
    End,
    /// Of a listing: packets that are dropped.
    Drop,
    /// Of a listing: a probe in the tie phase.
    Tie,
    /// Of a listing: an arrival that is refused with this number.
    Refuses(u8),
    /// Of a script: the first closing numbers are those of a state that stands.
    Stands,
    /// Of a script: all closing numbers are.
    AllStand,
    /// Of a script: the answers to its calls, in order, where one is given.
    Answers(Vec<Option<String>>),
    /// Of a script: all that it writes, a line each; a state is `same` where it is the one written before it, else `state`.
    Writes(Vec<String>),
    /// Of a script: of each state, in order, whether it is the one written before it.
    Same(Vec<bool>),
    /// Of a script: a begin or probe right after closing numbers, of which there is one, is refused: with 1 where those are,
    /// else with this number.
    Refused(u8),
    /// Of a script: calls from a set-up on, and the same with a begin and a probe for each step. A probe answers as the step
    /// but for the drops, which are the begin's; a begin has slot and window of the step, or is refused with 25 in a
    /// contention that is under way; all else is the same.
    Pairs,
    /// Of a script: a state that stands is changed and written; an admission, a begin, a probe, a step, a stretch with an
    /// arrival for this address, and the closing numbers are all refused with 1, and the state is as it was.
    Broken(u64),
}

impl Case {
    pub fn new(name: impl Into<String>, input: impl Into<Vec<u8>>, shows: Vec<Shows>) -> Case {
        Case { name: name.into(), input: input.into(), files: Vec::new(), shows }
    }

    /// A case of files.
    pub fn of(name: impl Into<String>, files: Vec<File>, shows: Vec<Shows>) -> Case {
        Case { files, ..Case::new(name, [], shows) }
    }
}

impl Shows {
    /// Whether an output shows this.
    pub fn is_in(&self, text: &str) -> bool {
        let begins = |word: &str| text.lines().any(|line| line.split(' ').next() == Some(word));
        match self {
            Shows::Whole(whole) => text == whole,
            Shows::Line(line) => text.lines().any(|other| other == line),
            Shows::Lacks(line) => text.lines().all(|other| other != line),
            Shows::Begins(part) => text.lines().any(|line| line.starts_with(part)),
            Shows::End => is_closed(text),
            Shows::Drop => begins("D"),
            Shows::Tie => text.contains(" T "),
            Shows::Refuses(number) => refusals(text).any(|other| other == number.to_string()),
            Shows::Stands => closing(text).next() == Some(true),
            Shows::AllStand => closing(text).next().is_some() && closing(text).all(|stands| stands),
            Shows::Answers(answers) => are_answers(answers, text),
            Shows::Writes(lines) => written(text) == *lines,
            Shows::Same(same) => states(text).eq(same.iter().copied()),
            Shows::Refused(number) => are_refused(text, *number),
            Shows::Pairs => are_pairs(text),
            Shows::Broken(address) => is_broken(text, *address),
        }
    }
}

/// The numbers by which arrivals of a listing are refused.
fn refusals(text: &str) -> impl Iterator<Item = &str> {
    text.lines().filter(|line| line.starts_with("R ")).filter_map(|line| line.rsplit(' ').next())
}

/// Whether a listing has a closing line as `Shows::End` says.
fn is_closed(text: &str) -> bool {
    let away = refusals(text).filter(|number| ["14", "15"].contains(number)).count();
    let words: Vec<&str> = text.lines().last().unwrap_or_default().split(' ').collect();
    matches!(words[..], ["END", _, _, _, _, _, last] if last == away.to_string())
}

/// Of each closing numbers, whether the state stands.
fn closing(text: &str) -> impl Iterator<Item = bool> + '_ {
    text.lines().filter(|line| line.starts_with('T')).map(|line| line.starts_with("T 0 "))
}

/// Whether the lines that answer calls are these, where one is given.
fn are_answers(answers: &[Option<String>], text: &str) -> bool {
    let given: Vec<&str> = text.lines().filter(|line| line.starts_with(['U', 'A', 'B', 'O', 'S', 'R', 'T'])).collect();
    given.len() == answers.len()
        && given.iter().zip(answers).all(|(line, answer)| answer.as_deref().is_none_or(|answer| answer == *line))
}

/// The answer to a call that is refused: its letter, the number, and zeros.
pub fn refused(letter: char, number: u8) -> String {
    let zeros = match letter {
        'A' | 'U' => 1,
        'B' => 5,
        'T' => 6,
        _ => 11,
    };
    format!("{letter} {number}{}", " 0".repeat(zeros))
}

/// The report of a stretch's step from its place on: the clock, and the numbers that a step answers.
pub fn step_report(place: usize, clock: impl Display, answer: &str) -> String {
    format!("call {place} 0 {clock} 0 0 0{}", answer.trim_start_matches('S'))
}

/// The answers of an admission, a begin, a probe, a step, the two of a stretch and the closing numbers that are refused with 1.
fn all_refused(clock: &str, address: u64) -> String {
    let [admission, begin, probe, step, closing] = ['A', 'B', 'O', 'S', 'T'].map(|letter| refused(letter, 1));
    let calls = [format!("call 0 1 {clock} {address} 1{}", " 0".repeat(13)), step_report(1, clock, &step)];
    format!("{admission}\n{begin}\n{probe}\n{step}\n{}\nR 2 1 0\n{closing}\n", calls.join("\n"))
}

/// What a script writes, a line each, a state being one line.
fn written(text: &str) -> Vec<&str> {
    let (mut lines, mut rest, mut last) = (Vec::new(), text, "");
    while let Some(line) = rest.lines().next() {
        let is_state = line.starts_with("settings ");
        let close = if is_state { "\nend\n" } else { "\n" };
        let (part, after) = rest.split_at(rest.find(close).map_or(rest.len(), |at| at + close.len()));
        lines.push(if !is_state {
            line
        } else if part == last {
            "same"
        } else {
            "state"
        });
        last = if is_state { part } else { last };
        rest = after;
    }
    lines
}

/// Of each state that a script writes, whether it is the one written before it.
fn states(text: &str) -> impl Iterator<Item = bool> + '_ {
    written(text).into_iter().filter(|line| ["same", "state"].contains(line)).map(|line| line == "same")
}

/// Whether begins and probes right after closing numbers are refused as `Shows::Refused` says.
fn are_refused(text: &str, number: u8) -> bool {
    let lines: Vec<&str> = text.lines().collect();
    let after = |pair: &&[&str]| pair[0].starts_with('T') && pair[1].starts_with(['B', 'O']);
    let is_refused = |pair: &[&str]| {
        let letter = pair[1].chars().next().expect("a letter begins it");
        pair[1] == refused(letter, if pair[0].starts_with("T 0 ") { number } else { 1 })
    };
    let pairs: Vec<&[&str]> = lines.windows(2).filter(after).collect();
    !pairs.is_empty() && pairs.into_iter().all(is_refused)
}

/// Whether a text has steps and then begins and probes as `Shows::Pairs` says. Whether a contention is under way is told by the
/// last number of a step, and by the first of a state's contention.
fn are_pairs(text: &str) -> bool {
    let (steps, pairs) = text.split_at(text.rfind("U ").unwrap_or(0));
    let (mut expected, mut under_way) = (Vec::new(), false);
    for line in steps.lines() {
        let words: Vec<&str> = line.split(' ').collect();
        match words[..] {
            ["S", "0", drops, slot, _, start, size, .., ended] => {
                let begin = format!("B 0 {drops} {slot} {start} {size}");
                let (begin, drops) = if under_way { ("B 25 0 0 0 0".to_string(), drops) } else { (begin, "0") };
                expected.extend([begin, format!("O 0 {drops} {}", words[3..].join(" "))]);
                under_way = ended == "0";
            }
            ["contention", begun, ..] => {
                under_way = begun == "1";
                expected.push(line.to_string());
            }
            _ => expected.push(line.to_string()),
        }
    }
    let without_word = |line: &str| match line.rsplit_once(' ') {
        Some((begin, _)) if line.starts_with('B') => begin.to_string(),
        _ => line.to_string(),
    };
    let given: Vec<String> = pairs.lines().filter(|line| !line.starts_with("offer ")).map(without_word).collect();
    expected.iter().any(|line| line.starts_with('O')) && given == expected
}

/// Whether a text ends as `Shows::Broken` says.
fn is_broken(text: &str, address: u64) -> bool {
    let from = |at: usize| Some(&text[at..at + text[at..].find("end\n")? + 4]);
    let lent = text.find("settings ").and_then(from).unwrap_or_default();
    let clock = lent.lines().find_map(|line| line.strip_prefix("clock ")).unwrap_or_default();
    Shows::Stands.is_in(text) && text.ends_with(&format!("{lent}{}{lent}", all_refused(clock, address)))
}

#[cfg(test)]
mod tests {
    use super::*;

    fn shows(shown: Shows, yes: &str, no: &str) {
        assert_eq!((shown.is_in(yes), shown.is_in(no)), (true, false), "{shown:?}");
    }

    #[test]
    fn lines_are_known() {
        shows(Shows::Whole("D 2\n".to_string()), "D 2\n", "D 2\nD 2\n");
        shows(Shows::Line("D 2".to_string()), "D 1\nD 2\n", "D 22\n");
        shows(Shows::Lacks("D 2".to_string()), "D 22\n", "D 1\nD 2\n");
        shows(Shows::Begins("REFUSED 24 "), "REFUSED 24 1\n", "REFUSED 2 24 1\n");
        shows(Shows::End, "0 P 0 4 I\nEND 1 0 0 0 0 0\n", "REFUSED 18 0\n");
        shows(Shows::Drop, "D 2\nEND 1 0 0 0 0 0\n", "END 1 0 0 0 0 0\n");
        shows(Shows::Tie, "4 T 0 8 C\n", "4 P 0 8 C\n");
        shows(Shows::Refuses(15), "R 0 7 15\n", "R 0 15 11\n");
        shows(Shows::Stands, "T 0 1 0 0 0 0 0\nT 1 0 0 0 0 0 0\n", "T 1 0 0 0 0 0 0\nT 0 1 0 0 0 0 0\n");
        shows(Shows::AllStand, "T 0 1 0 0 0 0 0\n", "T 0 1 0 0 0 0 0\nT 1 0 0 0 0 0 0\n");
        shows(Shows::Answers(vec![None, Some("A 0 1".to_string())]), "U 0 0\nA 0 1\nend\n", "A 0 1\nU 0 0\n");
    }

    #[test]
    fn a_closing_line_counts_the_packets_turned_away() {
        let text = |number: u8, fields: &str| format!("R 0 7 11\nR 0 7 {number}\nR 9 14 15\nEND 9 1 1 0 0{fields}\n");
        shows(Shows::End, &text(14, " 2"), &text(13, " 2"));
        shows(Shows::End, &text(12, " 1"), &text(14, " 3"));
        shows(Shows::End, &text(15, " 2"), &text(15, ""));
    }

    fn state(clock: u32) -> String {
        format!("settings 0 4 8 1 1\nclock {clock}\nend\n")
    }

    #[test]
    fn a_state_is_one_line() {
        let text = |clock| format!("B 0 0 0 0 4 0\n{}{}O 26\n{}", state(8), state(9), state(clock));
        let lines = ["B 0 0 0 0 4 0", "state", "state", "O 26", "same"].map(str::to_string).to_vec();
        shows(Shows::Writes(lines), &text(9), &text(8));
        shows(Shows::Same(vec![false, false, true]), &text(9), &text(8));
    }

    #[test]
    fn refusals_go_with_closing_numbers() {
        let text = |begin: &str| format!("T 0 1 0 0 0 0 0\n{begin}\nT 1 0 0 0 0 0 0\nB 1 0 0 0 0 0\nS 0\nB 0\n");
        shows(Shows::Refused(25), &text("B 25 0 0 0 0 0"), &text("B 1 0 0 0 0 0"));
        shows(Shows::Refused(25), &text("B 25 0 0 0 0 0"), &text("B 25 0 0 0 0 1"));
        shows(Shows::Refused(26), "T 1 0\nO 1 0 0 0 0 0 0 0 0 0 0 0\n", "T 1 0\nS 1\n");
    }

    #[test]
    fn a_step_is_a_begin_and_a_probe() {
        let steps = "U 0 0\nS 0 2 9 0 0 4 1 0 0 0 0 0\nS 0 0 10 0 0 2 0 0 0 0 0 0\nend\n";
        let text = |drops: u8, later: &str| {
            let first = format!("B 0 2 9 0 4 3\noffer 0 7 1 1\nO 0 {drops} 9 0 0 4 1 0 0 0 0 0");
            format!("{steps}U 0 0\n{first}\nB {later} 0 0 0 0 0\nO 0 0 10 0 0 2 0 0 0 0 0 0\nend\n")
        };
        shows(Shows::Pairs, &text(0, "25"), &text(2, "25"));
        shows(Shows::Pairs, &text(0, "25"), &text(0, "0"));
    }

    #[test]
    fn a_broken_state_comes_back_as_it_was() {
        let refused = all_refused("9", 7);
        let text = |stands: u8, after| format!("U 0 0\nT {stands} 9 0 0 0 0 0\n{}{refused}{}", state(9), state(after));
        shows(Shows::Broken(7), &text(0, 9), &text(0, 10));
        shows(Shows::Broken(7), &text(0, 9), &text(1, 9));
    }
}
