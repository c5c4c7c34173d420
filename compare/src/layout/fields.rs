//! Every number of a layout with every value at its edges and at its bits, in decimal and in hexadecimal.

use super::{some, wrong};
use crate::case::Case;
use crate::edges::{edges, within, Ranges};
use crate::records::LAST_SLOT;

/// A number of a layout: the discipline, its line, in which N stands for it, what it is now, the fault of its word where it is
/// no number, what it may be, and the fault of what it may not be.
struct Field(&'static str, &'static str, u64, u16, (u64, u64), u16);

const MOST: u64 = u32::MAX as u64;
const LAST: u64 = LAST_SLOT as u64;

#[rustfmt::skip]
const FIELDS: &[Field] = &[
    Field("PRI",  "bus PRI D N A 300 q 1",                                     5,   201, (2, 65_536),    3),
    Field("RTVC", "bus RTVC D 5 A N q 1",                                      300, 202, (2, 65_536),    4),
    Field("PRI",  "bus PRI D 5 A 300 q N",                                     1,   203, (1, 1),         5),
    Field("RTDG", "bus RTDG D 5 A 300 q N",                                    10,  203, (1, 65_535),    5),
    Field("RTVC", "bus RTVC D 5 A 300 q N",                                    1,   203, (1, 1),         5),
    Field("PRI",  "station address N",                                         263, 204, (0, 299),       7),
    Field("RTVC", "station address N capability 2",                            263, 204, (0, 299),       7),
    Field("RTVC", "station address 263 capability N",                          2,   205, (0, 99),        9),
    Field("PRI",  "arrival time N address 9 value 4 length 1",                 3,   206, (0, MOST),      0),
    Field("PRI",  "arrival time 3 address N value 4 length 1",                 263, 204, (0, 65_535),    306),
    Field("PRI",  "arrival time 3 address 9 value N length 1",                 4,   207, (0, 4),         12),
    Field("RTDG", "arrival time 3 address 9 value N length 1",                 40,  207, (0, LAST),      12),
    Field("RTVC", "arrival time 3 address 9 value N length 1",                 0,   207, (0, 0),         12),
    Field("PRI",  "arrival time 3 address 9 value 4 length N",                 2,   208, (1, 4_096),     13),
    Field("PRI",  "arrivals every N from 3 to 900 address 9 value 4 length 1", 7,   209, (1, MOST),      309),
    Field("PRI",  "arrivals every 7 from N to 900 address 9 value 4 length 1", 3,   210, (0, 900),       310),
    Field("PRI",  "arrivals every 2000000 from 300 to N address 9 value 4 length 1", 900, 211, (300, MOST), 310),
    Field("PRI",  "arrivals every 7 from 3 to N address 9 value 4 length 1",   900, 211, (3, 28_660),    22),
    Field("PRI",  "arrivals every 7 from 3 to 90 address N value 4 length 1",  263, 204, (0, 65_535),    306),
    Field("PRI",  "arrivals every 7 from 3 to 90 address 9 value N length 1",  4,   207, (0, 4),         12),
    Field("RTVC", "arrivals every 7 from 3 to 90 address 9 value N length 1",  0,   207, (0, 0),         12),
    Field("RTDG", "arrivals every 7 from 3 to 90 address 9 laxity N length 1", 40,  212, (0, LAST - 87), 12),
    Field("RTDG", "arrivals every 1000000000 from 0 to N address 9 laxity 73741824 length 1", 900, 211, (0, 1_999_999_999), 12),
    Field("PRI",  "arrivals every 7 from 3 to 90 address 9 value 4 length N",  2,   208, (1, 4_096),     13),
    Field("RTVC", "attempt time N address 9 value 4 length 0",                 3,   206, (0, MOST),      0),
    Field("RTVC", "attempt time 3 address N value 4 length 0",                 263, 204, (0, 65_535),    306),
    Field("RTVC", "attempt time 3 address 9 value N length 0",                 4,   207, (0, MOST),      0),
    Field("RTVC", "attempt time 3 address 9 value 4 length N",                 2,   208, (0, 65_535),    307),
    Field("PRI",  "run steps N",                                               40,  213, (0, 65_535),    308),
];

/// Each number with each of its values, and with some that are too large for any number.
pub fn fields() -> Vec<Case> {
    FIELDS.iter().flat_map(Field::cases).collect()
}

impl Field {
    fn cases(&self) -> Vec<Case> {
        let large = [MOST + 1, (MOST + 1) + self.2, 10 * (MOST + 1), 1 << 63, u64::MAX];
        let values = edges(32, self.2, &self.range()).into_iter().chain(large).enumerate();
        values.map(|(at, value)| self.case(value, &spelled(at, value))).collect()
    }

    fn range(&self) -> Ranges {
        vec![self.4]
    }

    /// A layout with the number in its line, and with the lines that it lacks.
    fn case(&self, value: u64, word: &str) -> Case {
        let Field(discipline, line, _, no_number, (low, _), fault) = *self;
        let (before, after): (&[&str], &[&str]) = match line.split(' ').next() {
            Some("bus") if discipline == "RTVC" => (&[], &["station address 1 capability 0", "run steps 40"]),
            Some("bus") => (&[], &["station address 1", "run steps 40"]),
            Some("run") => (before(discipline), &[]),
            _ => (before(discipline), &["run steps 40"]),
        };
        let changed = line.replace('N', word);
        let (name, at) = (format!("{discipline}: {changed}"), before.len() + 1);
        let text = [before, &[&changed], after].concat().join("\n") + "\n";
        match fault {
            _ if value > MOST => wrong(name, text, at, no_number),
            _ if within(&self.range(), value) => some(name, text),
            // The fault of too many arrivals is above a range, and another below it.
            22 if value < low => wrong(name, text, at, 310),
            fault => wrong(name, text, at, fault),
        }
    }
}

/// A number in decimal or, each second one, in hexadecimal, with digits that are small or capital and zeros before them.
fn spelled(at: usize, value: u64) -> String {
    match at % 4 {
        1 => format!("0x{value:x}"),
        3 => format!("0x{value:06X}"),
        _ => value.to_string(),
    }
}

/// A bus and a station, neither the address nor the capability of which is tried.
fn before(discipline: &str) -> &'static [&'static str] {
    match discipline {
        "PRI" => &["bus PRI D 5 A 300 q 1", "station address 9"],
        "RTDG" => &["bus RTDG D 5 A 300 q 10", "station address 9"],
        _ => &["bus RTVC D 100 A 300 q 1", "station address 9 capability 50"],
    }
}
