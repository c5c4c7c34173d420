//! The table of layouts, scripts/wrong-layouts.table; its first lines say how it reads.

use super::{some, wrong};
use crate::case::Case;
use std::collections::BTreeMap;

const LAYOUTS: &str = include_str!("../../../scripts/wrong-layouts.table");

/// Each row of the table.
pub fn written() -> Vec<Case> {
    let bases: BTreeMap<&str, Vec<u8>> = rows().filter_map(base).fold(BTreeMap::new(), |mut bases, (name, lines)| {
        bases.insert(name, text(lines, &bases));
        bases
    });
    let case = |parts: &[&'static str]| match *parts {
        ["base", ..] => None,
        [name, lines, "right"] => Some(some(name, text(lines, &bases))),
        [name, lines, told] => {
            let numbers =
                told.split_once(' ').and_then(|(line, fault)| Some((line.parse().ok()?, fault.parse().ok()?)));
            let (line, fault) = numbers.unwrap_or_else(|| panic!("'{name}' is neither right nor wrong"));
            Some(wrong(name, text(lines, &bases), line, fault))
        }
        _ => panic!("a row of layouts cannot be read: {parts:?}"),
    };
    rows().filter_map(|parts| case(&parts)).collect()
}

/// The parts of each line that is no comment.
fn rows() -> impl Iterator<Item = Vec<&'static str>> {
    let lines = LAYOUTS.lines().filter(|line| !line.is_empty() && !line.starts_with('#'));
    lines.map(|line| line.split(" | ").collect())
}

fn base(parts: Vec<&'static str>) -> Option<(&'static str, &'static str)> {
    match parts[..] {
        ["base", name, lines] => Some((name, lines)),
        _ => None,
    }
}

/// The text of some lines: bases by their names, and bytes for which signs stand.
fn text(lines: &str, bases: &BTreeMap<&str, Vec<u8>>) -> Vec<u8> {
    let line = |line: &str| match line.strip_prefix('{').and_then(|name| name.strip_suffix('}')) {
        Some(name) => bases.get(name).unwrap_or_else(|| panic!("there is no base '{name}'")).clone(),
        None => bytes(line),
    };
    lines.split('/').map(|part| line(one_space_less(part))).collect::<Vec<_>>().join(&b'\n')
}

/// A line without the space on each side that sets it off from the bars.
fn one_space_less(part: &str) -> &str {
    let part = part.strip_prefix(' ').unwrap_or(part);
    part.strip_suffix(' ').unwrap_or(part)
}

/// The bytes of a line: `\t`, `\r` and `\` with two hexadecimal digits are one byte each.
fn bytes(line: &str) -> Vec<u8> {
    let (mut bytes, mut rest) = (Vec::new(), line);
    while let Some((before, sign)) = rest.split_once('\\') {
        bytes.extend(before.as_bytes());
        let (byte, length) = match sign.as_bytes() {
            [b't', ..] => (b'\t', 1),
            [b'r', ..] => (b'\r', 1),
            _ => (u8::from_str_radix(&sign[..2], 16).unwrap_or_else(|_| panic!("'{line}' has no sign")), 2),
        };
        bytes.push(byte);
        rest = &sign[length..];
    }
    [&bytes[..], rest.as_bytes()].concat()
}

#[cfg(test)]
mod tests {
    use super::super::said::faults;
    use super::*;
    use crate::case::Shows;
    use std::collections::BTreeSet;

    #[test]
    fn lines_are_read() {
        let bases = BTreeMap::from([("one", b"a\nb".to_vec())]);
        assert_eq!(text("{one} / c", &bases), b"a\nb\nc");
        assert_eq!(text("a /   b  / ", &bases), b"a\n  b \n");
        assert_eq!(text("a\\tb\\r /  / \\00\\FFc", &bases), b"a\tb\r\n\n\0\xFFc");
        assert_eq!(text("", &bases), b"");
    }

    #[test]
    fn every_fault_has_a_row() {
        let shown: BTreeSet<u16> = written()
            .iter()
            .filter_map(|case| match &case.shows[..] {
                [Shows::Whole(told)] => told.trim_end().rsplit(' ').next()?.parse().ok(),
                _ => None,
            })
            .collect();
        assert_eq!(shown, faults().into_iter().map(|(number, _)| number).collect());
    }
}
