//! Every field of a scenario with every value at its edges and at its bits.

use super::{plain, refused, SLOT};
use crate::case::{Case, Shows};
use crate::edges::{edges, within, Ranges};
use crate::records::{offset, LAST_SLOT, LONGEST_PACKET, PRI, RTDG};

/// A field of the plain scenario: the place of its record and its own in it, its bytes, what refuses it, and what it may be
/// in each discipline that it is tried in.
struct Field(&'static str, usize, usize, usize, u8, &'static [&'static [(u64, u64)]]);

/// The table of fields. The records of kinds 1 and 3 have one length, so each passes for the other's here.
#[rustfmt::skip]
const FIELDS: &[Field] = &[
    Field("discipline",              0, 4,  1, 2,  &[&[(0, 2)]]),
    Field("D",                       0, 5,  4, 3,  &[&[(2, 65_536)]]),
    Field("A",                       0, 9,  4, 4,  &[&[(2, 65_536)]]),
    Field("q",                       0, 13, 2, 5,  &[&[(1, 1)], &[(1, 65_535)], &[(1, 1)]]),
    Field("N",                       0, 15, 1, 6,  &[&[(1, 64)]]),
    Field("first address",           1, 4,  2, 7,  &[&[(0, 299)]]),
    Field("last address",            3, 4,  2, 7,  &[&[(0, 299)]]),
    Field("first capability",        1, 6,  2, 9,  &[&[(0, 0)], &[(0, 0)], &[(0, 4)]]),
    Field("last capability",         3, 6,  2, 9,  &[&[(0, 0)], &[(0, 0)], &[(0, 4)]]),
    Field("arrival's address",       5, 8,  2, 11, &[&[(7, 7), (263, 263), (299, 299)]]),
    Field("value",                   5, 10, 4, 12, &[&[(0, 4)], &[(SLOT as u64, LAST_SLOT as u64)], &[(0, 0)]]),
    Field("packet length",           5, 14, 2, 13, &[&[(1, LONGEST_PACKET as u64)]]),
    Field("time",                    6, 4,  4, 21, &[&[(SLOT as u64, u32::MAX as u64)]]),
    Field("steps",                   7, 4,  2, 0,  &[&[(0, u16::MAX as u64)]]),
    Field("set-up record's length",  0, 0,  2, 19, &[&[(14, 14)]]),
    Field("station record's length", 2, 0,  2, 19, &[&[(6, 6)]]),
    Field("arrival record's length", 5, 0,  2, 19, &[&[(14, 14)]]),
    Field("run record's length",     7, 0,  2, 19, &[&[(4, 4)]]),
    Field("set-up record's kind",    0, 2,  2, 19, &[&[(1, 1), (3, 3)]]),
    Field("station record's kind",   2, 2,  2, 19, &[&[(2, 2)]]),
    Field("arrival record's kind",   5, 2,  2, 19, &[&[(1, 1), (3, 3)]]),
    Field("run record's kind",       7, 2,  2, 19, &[&[(4, 4)]]),
];

/// Each field with each of its values, in each discipline that it is tried in.
pub fn fields() -> Vec<Case> {
    let cases = |field: &'static Field| {
        field.5.iter().zip(PRI..).flat_map(|(ranges, discipline)| field.cases(discipline, &ranges.to_vec()))
    };
    FIELDS.iter().flat_map(cases).collect()
}

impl Field {
    fn cases(&self, discipline: u8, ranges: &Ranges) -> Vec<Case> {
        let Field(_, record, at, bytes, ..) = *self;
        let records = plain(discipline).records();
        let now = records[record][at..at + bytes].iter().rev().fold(0, |number, byte| number << 8 | u64::from(*byte));
        let case = |value| self.case(discipline, &records, value, within(ranges, value));
        edges(8 * bytes as u32, now, ranges).into_iter().map(case).collect()
    }

    /// The plain scenario with another value in the field, which is refused for it or, where it is good, is not.
    fn case(&self, discipline: u8, records: &[Vec<u8>], value: u64, good: bool) -> Case {
        let Field(name, record, at, bytes, refusal, _) = *self;
        let mut changed = records.to_vec();
        changed[record][at..at + bytes].copy_from_slice(&value.to_le_bytes()[..bytes]);
        let line = match refusal {
            11 => format!("R {SLOT} {value} 11"),
            12 if discipline == RTDG && value < SLOT.into() => format!("R {SLOT} 7 14"),
            12 | 13 => format!("R {SLOT} 7 {refusal}"),
            _ => format!("REFUSED {refusal} {}", offset(records, record)),
        };
        let shown = if good { Shows::Lacks(line) } else { Shows::Line(line) };
        let end = matches!(refusal, 11..=13).then_some(Shows::End);
        let shows = [shown].into_iter().chain(end).collect();
        Case::new(format!("{name} {value}, discipline {discipline}"), changed.concat(), shows)
    }
}

/// Two arrivals of which the second is one slot earlier, below each power of two and at the top: the first two, and the last.
pub fn falling_times() -> Vec<Case> {
    let earlier = (0..32).map(|bit| (1 << bit) - 1).chain([u32::MAX - 1]);
    let case = |(earlier, place): (u32, usize)| {
        let mut scenario = plain(PRI);
        scenario.arrivals[place - 1].time = earlier + 1;
        scenario.arrivals[place].time = earlier;
        let name = format!("time {earlier} after {} at place {place}", earlier + 1);
        refused(name, scenario.bytes(), 21, offset(&scenario.records(), 4 + place))
    };
    earlier.flat_map(|earlier| [(earlier, 1), (earlier, 2)]).map(case).collect()
}
