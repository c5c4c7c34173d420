//! What a program says of a layout, and how it shows a scenario, as text.

use crate::running::outputs_of;
use std::collections::BTreeMap;
use std::fs;
use std::sync::OnceLock;

/// The words of each fault, and the document whose table has the meanings of refusal numbers.
pub const FAULTS: &str = include_str!("../../../scripts/layout-faults.table");
const MEANINGS: &str = concat!(env!("CARGO_MANIFEST_DIR"), "/../docs/FORMAT.md");

/// How the text of a scenario begins.
pub const SET_UP: &str = "0E00 0100 ";

/// What a program says of a layout: its scenario's records, or the line that is wrong and its fault's number.
pub fn scenario_said(program: &str, layout: &[u8]) -> Result<Vec<u8>, String> {
    let said = said(program, None, layout)?;
    Ok(said.map_or_else(|line| fault_told(&line), |scenario| records(&scenario)).into_bytes())
}

/// What a program shows of a scenario: its layout, or the line that refuses it.
pub fn shown(program: &str, scenario: &[u8]) -> Result<Vec<u8>, String> {
    let said = said(program, Some("--show"), scenario)?;
    Ok(said.unwrap_or_else(|line| refusal_told(&line).into_bytes()))
}

/// A line that refuses a scenario as `REFUSED number offset`: it says so itself, or in words, `buslayout: refused, number 8: ..; record 4, ..,
/// at byte 32`, where 22 names no byte. Any other line stays as it is. What the words are is looked at by .ci/messages.
fn refusal_told(line: &str) -> String {
    let told = || {
        let (number, words) = line.strip_prefix("buslayout: refused, number ")?.split_once(": ")?;
        let offset = match words.trim_end().rsplit_once(", at byte ") {
            Some((_, offset)) => offset,
            None => (number == "22").then_some("0")?,
        };
        Some(format!("REFUSED {number} {offset}\n"))
    };
    told().unwrap_or_else(|| line.to_string())
}

/// What a program writes: to standard output, or one line to standard error and nothing else.
fn said(program: &str, argument: Option<&str>, input: &[u8]) -> Result<Result<Vec<u8>, String>, String> {
    let [output, errors] = outputs_of(program, argument, input)?;
    let errors = String::from_utf8_lossy(&errors).into_owned();
    match (output.is_empty(), errors.lines().count()) {
        (false, 0) => Ok(Ok(output)),
        (true, 1) if errors.ends_with('\n') => Ok(Err(errors)),
        (true, 0) => Err(format!("{program} wrote nothing")),
        (true, _) => Err(format!("{program} did not write one line to standard error: {errors:?}")),
        (false, _) => Err(format!("{program} wrote a scenario or layout, and to standard error: {errors:?}")),
    }
}

/// The records of a scenario, a line each, in hexadecimal by two bytes.
pub fn records(scenario: &[u8]) -> String {
    const DIGITS: &[u8; 16] = b"0123456789ABCDEF";
    let (mut text, mut rest) = (Vec::with_capacity(3 * scenario.len()), scenario);
    while !rest.is_empty() {
        let length = 2 + usize::from(rest[0]) + 256 * usize::from(*rest.get(1).unwrap_or(&0));
        let (record, after) = rest.split_at(length.min(rest.len()));
        for pair in record.chunks(2) {
            for byte in pair {
                text.extend([DIGITS[usize::from(byte >> 4)], DIGITS[usize::from(byte & 15)]]);
            }
            text.push(b' ');
        }
        text.pop();
        text.push(b'\n');
        rest = after;
    }
    String::from_utf8(text).expect("digits are letters")
}

/// A line that tells a fault, as `LINE FAULT`: by its number, or by words of the table after the line's. Any other stays.
fn fault_told(line: &str) -> String {
    static NUMBERS: OnceLock<BTreeMap<String, u16>> = OnceLock::new();
    let read = || numbers_by(&fs::read_to_string(MEANINGS).unwrap_or_default());
    match line.trim_end().strip_prefix("buslayout: line ").and_then(|rest| rest.split_once(": ")) {
        Some((at, words)) => fault_by(NUMBERS.get_or_init(read), at, words),
        None => line.to_string(),
    }
}

fn fault_by(numbers: &BTreeMap<String, u16>, at: &str, words: &str) -> String {
    match numbers.get(words) {
        Some(number) => format!("{at} {number}\n"),
        None => format!("{at} by words that are not those of the table and of docs/FORMAT.md: {words}\n"),
    }
}

const MEANING: &str = "MEANING";

/// The number of each fault by its words, MEANING being that of its number in a document; without a document's table of
/// meanings those that need one are left out.
fn numbers_by(document: &str) -> BTreeMap<String, u16> {
    let has_meaning = |(_, words): &(u16, &str)| words.contains(MEANING);
    let (wanted, plain): (Vec<(u16, &str)>, Vec<_>) = faults().into_iter().partition(has_meaning);
    let meanings = meanings(document, &wanted.iter().map(|(number, _)| *number).collect::<Vec<_>>());
    let with_meaning = |(number, words): (u16, &str)| Some((words.replace(MEANING, meanings.get(&number)?), number));
    let plain = plain.into_iter().map(|(number, words)| (words.to_string(), number));
    plain.chain(wanted.into_iter().filter_map(with_meaning)).collect()
}

/// Each fault's number and words.
pub fn faults() -> Vec<(u16, &'static str)> {
    let lines = FAULTS.lines().filter(|line| !line.is_empty() && !line.starts_with('#'));
    let fault = |line: &'static str| {
        let (number, words) = line.split_once(" | ").unwrap_or_else(|| panic!("a fault cannot be read: {line}"));
        (number.parse().unwrap_or_else(|_| panic!("a fault has no number: {line}")), words)
    };
    lines.map(fault).collect()
}

/// The meanings of refusal numbers: the second column of that table of a document whose first column has all of the numbers
/// that are wanted; nothing where there is none.
fn meanings(document: &str, wanted: &[u16]) -> BTreeMap<u16, String> {
    let row = |line: &str| {
        let mut cells = line.strip_prefix('|')?.split('|').map(str::trim);
        Some((cells.next()?.parse().ok()?, cells.next()?.to_string()))
    };
    let lines: Vec<&str> = document.lines().collect();
    let tables = lines.split(|line| !line.starts_with('|'));
    let mut tables = tables.map(|table| table.iter().filter_map(|line| row(line)).collect::<BTreeMap<u16, String>>());
    tables.find(|rows| wanted.iter().all(|number| rows.contains_key(number))).unwrap_or_default()
}

#[cfg(test)]
mod tests {
    use super::*;
    use std::collections::BTreeSet;

    /// A document with a table of kinds, and one of refusal numbers.
    fn document() -> String {
        let rows: String = (1..=26).map(|number| format!("| {number} | meaning of {number} | at a call |\n")).collect();
        format!("| 2 | station |\n| 3 | arrival |\n\n| No. | Meaning | Where |\n|---|---|---|\n{rows}\n| 8 | more |\n")
    }

    #[test]
    fn a_scenario_is_a_line_for_each_record() {
        let bytes = [&[4, 0, 4, 0, 14, 0][..], &[6, 0, 2, 0, 0xAB, 1, 0, 0], &[14, 0, 3]].concat();
        assert_eq!(records(&bytes), "0400 0400 0E00\n0600 0200 AB01 0000\n0E00 03\n");
        assert!(records(&[14, 0, 1, 0, 0]).starts_with(SET_UP));
        assert_eq!((records(&[]), records(&[5])), (String::new(), "05\n".to_string()));
    }

    #[test]
    fn faults_have_words_of_their_own() {
        let numbers = numbers_by(&document());
        assert_eq!(numbers.len(), faults().len());
        assert_eq!(numbers.get("refused, number 8: meaning of 8"), Some(&8));
        assert_eq!(
            numbers.get("expected a number after 'address', as 263 or 0x0107, at most 4,294,967,295"),
            Some(&204)
        );
        assert!(numbers.keys().all(|words| !words.contains(MEANING)));
        assert_eq!(numbers_by("| 8 | meaning of 8 |\n").len(), faults().len() - 12);
    }

    #[test]
    fn the_table_has_the_faults_of_the_document() {
        let refusals = (2..=10).chain([12, 13, 22]);
        let expected: BTreeSet<u16> = refusals.chain(101..=113).chain(201..=213).chain(300..=310).collect();
        let numbers: Vec<u16> = faults().into_iter().map(|(number, _)| number).collect();
        assert_eq!(numbers, expected.into_iter().collect::<Vec<_>>());
    }

    #[test]
    fn a_fault_is_told_by_number_or_words() {
        assert_eq!(fault_told("3 104\n"), "3 104\n");
        assert_eq!(fault_told("buslayout: it fails\n"), "buslayout: it fails\n");
        let by = |words| fault_by(&numbers_by(&document()), "12", words);
        assert_eq!(by("expected 'station', 'arrival', 'arrivals', 'attempt' or 'run'"), "12 303\n");
        assert_eq!(by("refused, number 22: meaning of 22"), "12 22\n");
        assert!(by("refused, number 22: meaning of 21").contains("not those of the table"));
        let words = "buslayout: refused, number 8: meaning: of 8; record 4, a station, at byte 32\n";
        assert_eq!(["REFUSED 8 32\n", words].map(refusal_told), ["REFUSED 8 32\n"; 2]);
        assert_eq!(refusal_told("buslayout: refused, number 22: meaning of 22\n"), "REFUSED 22 0\n");
        let others = ["buslayout: refused, number 8: meaning of 8\n", "buslayout: line 3: expected 'bus'\n"];
        assert_eq!(others.map(refusal_told), others);
    }

    #[test]
    fn a_program_says_one_thing() {
        let said = |script: &str| said("sh", None, script.as_bytes());
        assert_eq!(said("echo a"), Ok(Ok(b"a\n".to_vec())));
        assert_eq!(said("echo 3 104 >&2; exit 1"), Ok(Err("3 104\n".to_string())));
        for script in ["true", "echo a >&2; echo b >&2", "echo a; echo b >&2", "printf a >&2"] {
            assert!(said(script).is_err(), "{script}");
        }
        assert_eq!(shown("echo", b""), Ok(b"--show\n".to_vec()));
    }
}
