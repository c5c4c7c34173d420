//! Tables of calls: each number of a set-up, an admission and a clock at its edges and bits; each two faults of a set-up,
//! and all faults of an admission, at once; texts that are odd.

use super::lent::{ADMITTED, CLOCK, LAST_WINNER, SENT, TURNED_AWAY};
use super::text::{words, Script};
use crate::case::{refused, Case, Shows};
use crate::edges::{alone_and_with, edges, within};
use crate::records::{
    LAST_NUMBER, LAST_SLOT, LAST_STEP, LONGEST, LONGEST_PACKET, MOST_TURNED_AWAY, PRI, QUEUE_PLACES, RTDG, RTVC,
};

/// The numbers of a set-up in a script: discipline, D, A, q, N, the row's length, the pairs, and each station's two.
pub(super) fn plain(discipline: u8) -> [u64; 13] {
    let laxity_step = if discipline == RTDG { 10 } else { 1 };
    let [one, two, three] = if discipline == RTVC { [4, 0, 2] } else { [0; 3] };
    [discipline.into(), 5, 300, laxity_step, 3, 3, 3, 7, one, 263, two, 299, three]
}

/// The clock at which admissions are asked for; a latest start below it is too late.
pub(super) const NOW: u64 = 50;

/// What a value may be.
pub(super) fn values(discipline: u8) -> (u64, u64) {
    [(0, 4), (NOW, LAST_SLOT.into()), (0, 0)][usize::from(discipline)]
}

/// A fault of the plain set-up: its refusal and station, and which of the numbers is what.
type Fault = (u8, usize, usize, u64);

/// The faults in the order in which they are tried.
#[rustfmt::skip]
const FAULTS: &[Fault] = &[
    (2, 0, 0, 3), (3, 0, 1, 1), (4, 0, 2, 65_537), (5, 0, 3, 0), (6, 0, 4, 65), (6, 0, 4, 0), (6, 0, 5, 2),
    (7, 0, 7, 300), (9, 0, 8, 5),
    (7, 1, 9, 65_536 + 263), (8, 1, 9, 7), (9, 1, 10, 65_536), (10, 1, 10, 4),
    (7, 2, 11, 300), (8, 2, 11, 263), (9, 2, 12, 5), (10, 2, 12, 4),
];

/// Set-ups with one fault or two, and the calls on the state that each hands back.
pub fn set_ups() -> Vec<Case> {
    [PRI, RTVC].into_iter().flat_map(faulty_set_ups).collect()
}

/// Those of a discipline: 10 is of RTVC alone, and one number has one value.
fn faulty_set_ups(discipline: u8) -> Vec<Case> {
    let faults: Vec<Fault> = FAULTS.iter().copied().filter(|fault| discipline == RTVC || fault.0 != 10).collect();
    let apart = |(fault, later): &(&Fault, Option<&Fault>)| later.is_none_or(|later| later.2 != fault.2);
    alone_and_with(&faults).into_iter().filter(apart).map(|(fault, later)| faulty(discipline, fault, later)).collect()
}

fn faulty(discipline: u8, fault: &Fault, later: Option<&Fault>) -> Case {
    let mut numbers = plain(discipline);
    let faults = later.into_iter().chain([fault]);
    faults.for_each(|(_, _, at, value)| numbers[*at] = *value);
    let name = format!("set-up {} for {}", words(&numbers), fault.0);
    let calls = ['A', 'B', 'O', 'S', 'T'].map(|letter| refused(letter, 1));
    let answers = [format!("U {} {}", fault.0, fault.1)].into_iter().chain(calls).map(Some).collect();
    let text = format!("U {}\nP A 7 0 1 B O S T", words(&numbers));
    Case::new(name, text, vec![Shows::Answers(answers)])
}

/// Admissions with no fault, one or more, on states with no fault, one or more: the first in order decides.
pub fn admissions() -> Vec<Case> {
    let case = |bits: usize| {
        admission([PRI, RTDG, RTVC][bits / 96], [1, 2, 4, 8, 16].map(|bit| bits & bit != 0), bits / 32 % 3)
    };
    (0..3 * 96).map(case).collect()
}

/// An admission on a state that is broken or not, whose queue is full or not, whose numbers are spent or not; for an address
/// that no station has or not, of length 0 or 1. The value is good, below the clock, or higher than any.
fn admission(discipline: u8, [broken, full, spent, unknown, short]: [bool; 5], value: usize) -> Case {
    let (good, waiting) = (values(discipline).0, if full { QUEUE_PLACES as u64 } else { 1 });
    let asked = [if unknown { 519 } else { 7 }, [good, NOW - 1, LAST + 1][value], u64::from(!short)];
    let mut script = Script::default();
    script.put(format_args!("U {} E {CLOCK} 0 {NOW}", words(&plain(discipline))));
    (0..waiting).for_each(|_| script.admit(&[7, good, 1]));
    if spent {
        script.edit(ADMITTED, 0, LAST_NUMBER);
        script.edit(SENT, 0, LAST_NUMBER - waiting);
    }
    if broken {
        script.edit(LAST_WINNER, 0, 1);
    }
    let late = discipline == RTDG && value == 1;
    let tests =
        [(broken, 1), (unknown, 11), (value > 0 && !late, 12), (short, 13), (late, 14), (full, 15), (spent, 16)];
    let refusal = tests.into_iter().find(|(fault, _)| *fault).map(|(_, number)| number);
    for count in COUNTS {
        script.edit(TURNED_AWAY, 0, raised(count, 1, refusal));
        script.put(format_args!("P E {TURNED_AWAY} 0 {count} A {} P", words(&asked)));
    }
    script.put(format_args!("R 1 1 1 {NOW} {}", words(&asked)));
    let answer = |at| refusal.map_or_else(|| format!("A 0 {}", waiting + at), |number| refused('A', number));
    let name = format!("discipline {discipline}, broken {broken}, full {full}, spent {spent}, A {}", words(&asked));
    let answers = [vec![None; waiting as usize + 1], vec![Some(answer(1)), Some(answer(2)), None]].concat();
    let same = refusal.is_some();
    Case::new(name, script.text, vec![Shows::Answers(answers), Shows::Same(vec![false, same, false, same, broken])])
}

/// Counts of packets turned away before an admission: some, and the last.
const COUNTS: [u64; 2] = [5, MOST_TURNED_AWAY];

/// The count of packets turned away after so many admissions that are all refused with a number, or accepted: 14 and 15 raise
/// it, up to the last; what is above that stays.
pub(super) fn raised(count: u64, admissions: u64, refusal: Option<u8>) -> u64 {
    match refusal {
        Some(14 | 15) if count <= MOST_TURNED_AWAY => MOST_TURNED_AWAY.min(count + admissions),
        _ => count,
    }
}

/// A number of the plain set-up, of an admission after it or of the clock then: which word of the script it is, its bits, what
/// refuses it, and what it may be in each discipline. A row of three stations has room for no N above 3.
struct Number(&'static str, usize, u32, u8, [&'static [(u64, u64)]; 3]);

pub(super) const LAST: u64 = LAST_SLOT as u64;

#[rustfmt::skip]
const NUMBERS: &[Number] = &[
    Number("discipline",            1,  32, 2,  [&[(0, 2)]; 3]),
    Number("D",                     2,  32, 3,  [&[(2, 65_536)]; 3]),
    Number("A",                     3,  32, 4,  [&[(2, 65_536)]; 3]),
    Number("q",                     4,  32, 5,  [&[(1, 1)], &[(1, 65_535)], &[(1, 1)]]),
    Number("N",                     5,  64, 6,  [&[(1, 3)]; 3]),
    Number("row's length",          6,  64, 6,  [&[(3, u64::MAX)]; 3]),
    Number("first address",         8,  32, 7,  [&[(0, 299)]; 3]),
    Number("first capability",      9,  32, 9,  [&[(0, 0)], &[(0, 0)], &[(0, 4)]]),
    Number("clock",                 17, 32, 17, [&[(0, LAST_STEP as u64), (0, LAST)]; 3]),
    Number("address of a packet",   19, 32, 11, [&[(7, 7), (263, 263), (299, 299)]; 3]),
    Number("value of a packet",     20, 32, 12, [&[(0, 4)], &[(NOW, LAST)], &[(0, 0)]]),
    Number("length of a packet",    21, 32, 13, [&[(1, LONGEST_PACKET as u64)]; 3]),
];

/// Each number of a set-up, an admission and the clock with each of its values: a step, and once more a begin and a probe.
pub fn asked() -> Vec<Case> {
    NUMBERS.iter().flat_map(|number| [PRI, RTDG, RTVC].map(|discipline| number.swept(discipline))).collect()
}

impl Number {
    fn swept(&self, discipline: u8) -> Case {
        let Number(name, at, bits, _, ranges) = self;
        let text = format!("U {} E {CLOCK} 0 {NOW} A 7 {} 1", words(&plain(discipline)), values(discipline).0);
        let mut script: Vec<String> = text.split(' ').map(str::to_string).collect();
        let now = script[*at].parse().expect("a number stands there");
        let ranges = ranges[usize::from(discipline)].to_vec();
        let (mut text, mut answers) = (Script::default(), Vec::new());
        for value in edges(*bits, now, &ranges) {
            script[*at] = value.to_string();
            let calls = script.join(" ");
            text.put(format_args!("{calls} S {calls} B O"));
            answers.extend(self.answers(discipline, value, within(&ranges, value)));
        }
        Case::new(format!("{name}, discipline {discipline}"), text.text, vec![Shows::Answers(answers)])
    }

    /// What set-up, admission and step answer, and set-up, admission, begin and probe, where that is sure.
    fn answers(&self, discipline: u8, value: u64, good: bool) -> Vec<Option<String>> {
        let (accepted, admitted) = (Some("U 0 0".to_string()), Some("A 0 1".to_string()));
        let all = |number| ['B', 'O', 'S'].map(|letter| Some(refused(letter, number)));
        let (made, [begin, probe, step]) = match self.3 {
            17 if value > LAST => ([accepted, Some(refused('A', 1))], all(1)),
            17 if value > LAST_STEP.into() => {
                let [_, probe, step] = all(17);
                let waits = discipline != RTDG;
                ([accepted, None], [Some(format!("B 0 0 {value} 0 8 {}", u8::from(waits))), probe, step])
            }
            17 => ([accepted, None], [None, None, None]),
            11.. if good => ([accepted, admitted], [None, None, None]),
            12 if discipline == RTDG && value < NOW => ([accepted, Some(refused('A', 14))], [None, None, None]),
            number @ 11.. => ([accepted, Some(refused('A', number))], [None, None, None]),
            _ if good => ([None, None], [None, None, None]),
            number => ([Some(refused('U', number)), Some(refused('A', 1))], all(1)),
        };
        [&made[..], &[step], &made, &[begin, probe]].concat()
    }
}

/// Scripts whose text is odd: separators, comments, large numbers, unknown letters and fields, an early end.
pub fn odd_texts() -> Vec<Case> {
    let texts = TEXTS.iter().map(|text| Case::new(format!("odd text {text:?}"), *text, Vec::new()));
    let long = [LONGEST - 1, LONGEST].map(|before| {
        Case::new(format!("P after {before} bytes"), [" ".repeat(before), "P".to_string()].concat(), Vec::new())
    });
    texts.chain(long).collect()
}

/// Texts, each a whole script.
const TEXTS: &[&str] = &[
    "",
    "P",
    "# S\rS S\rS\nP",
    "# no command at all: U A B O S R T E P\n",
    "U0,4,8,1,3,3,3:1-0;5-0;6-0 A5/2/3A6 2 1 A 1\t3\r\n2SSR2,1,1:0-5/2/3S",
    "U 0 4 8 1 3 3 3 1 0 5 0 6 0 A 5 2 3 # S S S\nS xyz S ~ Q 1 2 3 S",
    "U 0 4 8 1 3 3 3 1 0 5 0 6 0 A 5 # 2 3 is read\nS",
    "U 1 8 16 10 1 1 1 1 0 E 8 0 99999999999999999999999 P T E 8 0 18446744073709551609 P E 8 0 18446744073709551610 P",
    "U 0 4 8 1 2 2 2 1 0 2 0 E 9 0 18446744073709551609 P E 10 0 18446744073709551615 P E 5 0 18446744073709551616 P T",
    "U 0 4 8 1 2 2 2 1 0 2 0 E 0 0 1 E 33 0 1 E 64 0 1 E 1000 0 1 E 18446744073709551615 0 1 P S",
    "U 0 4 8 1 2 2 2 1 0 2 0 E 6 64 3 E 6 129 5 E 26 1024 7 E 27 1047 9 E 25 18446744073709551615 4 P",
    "E 29 65 3 E 30 1025 5 P E 22 1 4294967299 E 26 1 8589934597 E 29 1 4294967301 E 30 1 8589934599 P",
    "E 24 0 1 E 25 0 2 E 28 0 3 E 29 0 4 E 30 0 5 P E 29 0 0 P E 30 0 0 P",
    "E 31 9 18446744073709551609 P E 31 0 18446744073709551610 P E 31 18446744073709551615 99999999999999999999999 P E 31",
    "E 31 63 4294967298 P E 20 1 0 P E 20 65 1 P E 31 0 1 P E 21 40 3 E 31 1 9223372036854775808 P E 20 127 2 P",
    "E 32 9 18446744073709551609 P E 32 0 18446744073709551610 P E 32 1 4294967296 P E 32 18446744073709551615 300 P E 32",
    "E 21 5 4294967296 E 25 3 8589934592 E 10 0 4294967296 P",
    "U 4294967296 4294967300 8 4294967297 1 1 1 4294967297 4294967296 A 1 0 1 R 4294967298 1 1 4294967296 4294967297 0 1 P",
    "B O P S B",
    "U0,4,8,1,2,2,2:1-0;5-0A1/3/1BOBA5/0/1BOOBOO",
    "U 0 4 8 1 2 2 2 1 0 5 0 A 1 3 1 b o # B O\nB 7 O 9,B # O\rO\nO",
    "U 0 4 8 1 1 1 1 1 0 E 8 B 0 O 5 B 8 0 9 O P",
    "U 0 4 8 1 2 2 70 1 0 2 0 3 0 4 0 5 0 6 0 7 0 0 0 A 1 0 1 S",
    "U 0 4 8 1 2 2 2 1 0 2",
    "U 2 4 8 1 2 2 2 1 0 2 3 E 12 0 3 E 13 0 3 P T E 12 0 2 P T E 17 0 7 E 17 0 6 A 1 0 1 R 2 2 18446744073709551615 0 1 0 1",
];
