//! The tables of scripts/, a line each; their first lines say how they read.

use crate::case::{refused, Case, Shows};
use std::collections::BTreeMap;

pub const LENT: &str = include_str!("../../../scripts/lent.table");
pub const BEGIN: &str = include_str!("../../../scripts/begin.table");
pub const TURNED_AWAY: &str = include_str!("../../../scripts/turned-away.table");
pub const SETTLED: &str = include_str!("../../../scripts/settled.table");

/// The tables that name bases.
const TABLES: [&str; 4] = [LENT, BEGIN, TURNED_AWAY, SETTLED];

/// Each row of a table of calls and what they write.
pub fn written(table: &'static str) -> Vec<Case> {
    let bases = Bases::read();
    let case = |parts: Vec<&str>| {
        let [name, base, calls, lines] = parts[..] else { panic!("a line of a table cannot be read: {parts:?}") };
        let (_, made) = bases.of(base);
        let lines = accepted(&made).into_iter().chain(lines.split(", ").map(whole));
        Case::new(name, format!("{made} {calls}"), vec![Shows::Writes(lines.collect())])
    };
    rows(table).map(case).collect()
}

/// A line with the zeros of a refusal.
fn whole(line: &str) -> String {
    let number = line.get(2..).and_then(|number| number.parse().ok());
    number.map_or(line.to_string(), |number| refused(line.as_bytes()[0].into(), number))
}

/// What a set-up and the admissions of a script write where all are accepted.
pub fn accepted(calls: &str) -> Vec<String> {
    let admissions = 1..=calls.matches('A').count();
    calls.matches('U').map(|_| "U 0 0".to_string()).chain(admissions.map(|number| format!("A 0 {number}"))).collect()
}

/// The parts of each line of a table that is no comment, but for those that name calls.
pub fn rows(table: &'static str) -> impl Iterator<Item = Vec<&'static str>> {
    parts(table).filter(|parts| parts[0] != "base")
}

fn parts(table: &'static str) -> impl Iterator<Item = Vec<&'static str>> {
    let lines = table.lines().filter(|line| !line.is_empty() && !line.starts_with('#'));
    lines.map(|line| line.split('|').map(str::trim).collect())
}

/// Calls that have a name, each with an admission that the state after them takes.
pub struct Bases(BTreeMap<&'static str, [&'static str; 2]>);

impl Bases {
    /// Those of all tables.
    pub fn read() -> Bases {
        let base = |parts: Vec<&'static str>| match parts[..] {
            ["base", name, admission, calls] => Some((name, [admission, calls])),
            _ => None,
        };
        Bases(TABLES.into_iter().flat_map(parts).filter_map(base).collect())
    }

    /// The admission and the calls of a name, and those that follow the name and a colon; none of `-`.
    pub fn of(&self, base: &str) -> (&'static str, String) {
        if base == "-" {
            return ("", String::new());
        }
        let (name, more) = base.split_once(": ").unwrap_or((base, ""));
        let [admission, calls] = self.0.get(name).unwrap_or_else(|| panic!("there is no base '{name}'"));
        (admission, format!("{calls} {more}"))
    }
}

#[cfg(test)]
mod tests {
    use super::*;
    use std::collections::BTreeSet;

    /// The lines that a case has to write.
    fn lines(case: &Case) -> &[String] {
        let [Shows::Writes(lines)] = &case.shows[..] else { panic!("'{}' does not say what it writes", case.name) };
        lines
    }

    #[test]
    fn a_row_is_read() {
        let rows = written(
            "# two\n\n13, of length 0 | one: A 0 3 1 | P  A 0 0 0 | state, A 13, same\nx | - | T | T 1, state\n",
        );
        assert_eq!([&rows[0].name, &rows[1].name], ["13, of length 0", "x"]);
        assert_eq!(rows[0].input, b"U 0 4 8 1 1 1 1 0 0 A 0 3 1 P  A 0 0 0");
        assert_eq!(lines(&rows[0]), ["U 0 0", "A 0 1", "state", "A 13 0", "same"]);
        assert_eq!((&rows[1].input[..], &lines(&rows[1])[0][..]), (&b" T"[..], "T 1 0 0 0 0 0 0"));
    }

    #[test]
    fn no_row_is_played_by_another() {
        for table in [BEGIN, TURNED_AWAY, SETTLED] {
            let inputs: BTreeSet<Vec<u8>> = written(table).into_iter().map(|case| case.input).collect();
            assert_eq!(inputs.len(), rows(table).count(), "{table:.60}");
        }
    }

    #[test]
    fn a_base_has_a_name_of_its_own() {
        let bases = TABLES.into_iter().flat_map(parts).filter(|parts| parts[0] == "base");
        assert_eq!(Bases::read().0.len(), bases.count());
    }

    /// Where the name of a settled row begins with a number, an answer has that refusal.
    #[test]
    fn every_refusal_has_a_row() {
        let mut seen = BTreeSet::new();
        for case in written(SETTLED) {
            let Some(number) = case.name.split(", ").next().and_then(|word| word.parse::<u8>().ok()) else { continue };
            let given = |letter| lines(&case).iter().any(|line| line.starts_with(&format!("{letter} {number} ")));
            assert!(['U', 'A', 'B', 'O', 'S', 'T'].into_iter().any(given), "{}", case.name);
            seen.insert(number);
        }
        assert_eq!(seen, (0..=17).chain([25, 26]).collect());
    }
}
