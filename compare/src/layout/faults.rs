//! Lines with one fault or two, so that the order in which a line is tried shows; every first word in every place.

use super::{some, wrong};
use crate::case::Case;
use crate::edges::alone_and_with;

/// A line that is right, with those before and after it, and its faults in the order in which they are tried.
struct Sort {
    name: &'static str,
    before: &'static [&'static str],
    line: &'static str,
    after: &'static [&'static str],
    faults: &'static [Fault],
}

/// A fault: its number, the place of a word in the line, counted from 0, and what stands there instead.
struct Fault(u16, usize, &'static str);

const PRI: &[&str] = &["bus PRI D 5 A 300 q 1", "station address 7", "station address 263"];
const RTDG: &[&str] = &["bus RTDG D 5 A 300 q 10", "station address 7", "station address 263"];
const RTVC: &[&str] = &["bus RTVC D 5 A 300 q 1", "station address 7 capability 4", "station address 263 capability 0"];
const RUN: &[&str] = &["run steps 40"];

#[rustfmt::skip]
const SORTS: &[Sort] = &[
    Sort { name: "bus", before: &[], line: "bus RTDG D 5 A 300 q 10", after: &["station address 7", "run steps 40"], faults: &[
        Fault(2, 1, "x"), Fault(101, 2, "A"), Fault(201, 3, "x"), Fault(102, 4, "a"), Fault(202, 5, "0x"), Fault(103, 6, "Q"),
        Fault(203, 7, "010"), Fault(300, 8, "N"), Fault(3, 3, "1"), Fault(4, 5, "65537"), Fault(5, 7, "0"),
    ] },
    Sort { name: "station", before: RTVC, line: "station address 299 capability 2", after: RUN, faults: &[
        Fault(104, 1, "time"), Fault(204, 2, "-1"), Fault(105, 3, "value"), Fault(205, 4, "two"), Fault(300, 5, "x"),
        Fault(7, 2, "300"), Fault(8, 2, "0x107"), Fault(9, 4, "5"), Fault(10, 4, "0"),
    ] },
    Sort { name: "arrival", before: PRI, line: "arrival time 3 address 7 value 4 length 1", after: RUN, faults: &[
        Fault(106, 1, "every"), Fault(206, 2, "x"), Fault(104, 3, "value"), Fault(204, 4, "length"), Fault(107, 5, "laxity"),
        Fault(207, 6, "4294967296"), Fault(108, 7, "steps"), Fault(208, 8, "1x"), Fault(300, 9, "1"), Fault(306, 4, "65536"),
        Fault(12, 6, "5"), Fault(13, 8, "0"),
    ] },
    Sort { name: "arrivals", before: PRI, line: "arrivals every 10 from 5 to 40 address 263 value 4 length 2", after: RUN, faults: &[
        Fault(109, 1, "time"), Fault(209, 2, "x"), Fault(110, 3, "to"), Fault(210, 4, "x"), Fault(111, 5, "from"), Fault(211, 6, "x"),
        Fault(104, 7, "x"), Fault(204, 8, "x"), Fault(107, 9, "laxity"), Fault(207, 10, "x"), Fault(108, 11, "x"), Fault(208, 12, "x"),
        Fault(300, 13, "length"), Fault(309, 2, "0"), Fault(310, 6, "4"), Fault(306, 8, "65536"), Fault(12, 10, "5"),
        Fault(13, 12, "4097"), Fault(22, 6, "4294967295"),
    ] },
    Sort { name: "arrivals of RTDG", before: RTDG, line: "arrivals every 10 from 5 to 40 address 7 laxity 3 length 2", after: RUN, faults: &[
        Fault(109, 1, "x"), Fault(209, 2, "00"), Fault(110, 3, "x"), Fault(210, 4, "x"), Fault(111, 5, "x"), Fault(211, 6, "x"),
        Fault(104, 7, "x"), Fault(204, 8, "x"), Fault(112, 9, "value"), Fault(212, 10, "x"), Fault(108, 11, "x"), Fault(208, 12, "x"),
        Fault(300, 13, "2"), Fault(309, 2, "0x0"), Fault(310, 6, "0"), Fault(306, 8, "0x10000"), Fault(12, 10, "1073741790"),
        Fault(13, 12, "0"), Fault(22, 6, "1000000"),
    ] },
    Sort { name: "attempt", before: RTVC, line: "attempt time 3 address 7 value 1 length 0", after: RUN, faults: &[
        Fault(106, 1, "x"), Fault(206, 2, "x"), Fault(104, 3, "x"), Fault(204, 4, "x"), Fault(107, 5, "x"), Fault(207, 6, "x"),
        Fault(108, 7, "x"), Fault(208, 8, "x"), Fault(300, 9, "x"), Fault(306, 4, "65536"), Fault(307, 8, "65536"),
    ] },
    Sort { name: "run", before: PRI, line: "run steps 40", after: &[], faults: &[
        Fault(113, 1, "step"), Fault(213, 2, "forty"), Fault(300, 3, "40"), Fault(308, 2, "65536"),
    ] },
];

/// Each sort of line with each fault alone and with each two of them, and cut at each word. The later one is made first.
pub fn pairs() -> Vec<Case> {
    SORTS.iter().flat_map(|sort| sort.pairs().chain(sort.cuts())).collect()
}

impl Sort {
    fn pairs(&self) -> impl Iterator<Item = Case> + '_ {
        alone_and_with(self.faults).into_iter().map(|(fault, later)| {
            let mut words: Vec<&str> = self.line.split(' ').collect();
            let (made, mut name) = ([later, Some(fault)], format!("{}: {} by {}", self.name, fault.0, fault.2));
            made.into_iter().flatten().for_each(|fault| fault.make(&mut words));
            if let Some(later) = later {
                name += &format!(" and {} by {}", later.0, later.2);
            }
            self.case(name, &words, fault.0)
        })
    }

    /// What is missing from a word on has the fault of another word there.
    fn cuts(&self) -> impl Iterator<Item = Case> + '_ {
        let words: Vec<&str> = self.line.split(' ').collect();
        (1..words.len()).map(move |kept| {
            let fault = self.faults.iter().find(|fault| fault.1 == kept).expect("each word has a fault");
            self.case(format!("{}: {kept} words", self.name), &words[..kept], fault.0)
        })
    }

    fn case(&self, name: String, words: &[&str], fault: u16) -> Case {
        let line = words.join(" ");
        let lines = [self.before, &[&line], self.after].concat();
        wrong(name, lines.join("\n") + "\n", self.before.len() + 1, fault)
    }
}

impl Fault {
    /// Puts the wrong word into a line, or behind it.
    fn make(&self, words: &mut Vec<&str>) {
        let Fault(_, place, word) = *self;
        if place < words.len() {
            words[place] = word;
        } else {
            words.push(word);
        }
    }
}

/// The lines of each sort, in their order, and what begins no line.
const BUS: &str = "bus PRI D 5 A 300 q 1";
const STATION: &str = "station address 7";
const TIMED: [&str; 3] = [
    "arrival time 3 address 7 value 4 length 1",
    "arrivals every 10 from 5 to 40 address 7 value 4 length 2",
    "attempt time 3 address 7 value 5 length 0",
];
const OTHERS: [&str; 4] = ["x", "Bus PRI D 5 A 300 q 1", "stations address 9", "arriva"];

/// Every line in every place, as the text's last, and in each case what stands there or is expected next.
pub fn first_words() -> Vec<Case> {
    let after = |line: &'static str| vec![BUS, STATION, line];
    let mut places = vec![vec![], vec![BUS], vec![BUS, STATION], after(RUN[0])];
    places.extend(TIMED.map(after));
    let lines = [&[BUS, "station address 9"][..], &TIMED, RUN, &OTHERS].concat();
    let case = |before: &Vec<&'static str>, line: &'static str| {
        let text = [&before[..], &[line]].concat().join("\n");
        let name = format!("{} behind {}", first(line), before.last().map_or("nothing", |last| first(last)));
        match fault_of(before, line) {
            Some(fault) => wrong(name, text, before.len() + 1, fault),
            None => some(name, text),
        }
    };
    places.iter().flat_map(|before| lines.iter().map(move |line| case(before, line))).collect()
}

fn first(line: &str) -> &str {
    line.split(' ').next().unwrap_or_default()
}

/// The fault of a text's last line, by those before it: it has no place, or it is no run.
fn fault_of(before: &[&str], line: &str) -> Option<u16> {
    let is_timed = |line: &str| ["arrival", "arrivals", "attempt"].contains(&first(line));
    let expected = |last: Option<&&str>| match last.map(|last| first(last)) {
        None => 301,
        Some("bus") => 302,
        Some("station") => 303,
        Some("run") => 305,
        Some(_) => 304,
    };
    let has_place = match (expected(before.last()), first(line)) {
        (302, word) if is_timed(word) || word == "run" => return Some(6),
        (301, word) => word == "bus",
        (302, word) => word == "station",
        (303, word) => word == "station" || word == "run" || is_timed(word),
        (304, word) => word == "run" || is_timed(word),
        _ => false,
    };
    match first(line) {
        "run" if has_place => None,
        _ if has_place => Some(expected(Some(&line))),
        _ => Some(expected(before.last())),
    }
}

#[cfg(test)]
mod tests {
    use super::*;

    #[test]
    fn a_line_has_the_faults_that_are_made() {
        let input = |name: &str| {
            let case = pairs().into_iter().find(|case| case.name == name).expect("there is such a case");
            String::from_utf8(case.input).unwrap().lines().nth(3).unwrap().to_string()
        };
        assert_eq!(input("run: 300 by 40 and 308 by 65536"), "run steps 65536 40");
        assert_eq!(input("run: 213 by forty and 308 by 65536"), "run steps forty");
        assert_eq!(input("run: 2 words"), "run steps");
    }

    #[test]
    fn first_words_have_their_places() {
        let fault = |before: &[&str], line| fault_of(before, line);
        assert_eq!([fault(&[], BUS), fault(&[], "x")], [Some(302), Some(301)]);
        assert_eq!(
            [fault(&[BUS], RUN[0]), fault(&[BUS], BUS), fault(&[BUS], STATION)],
            [Some(6), Some(302), Some(303)]
        );
        assert_eq!([fault(&[STATION], RUN[0]), fault(&[STATION], BUS)], [None, Some(303)]);
        assert_eq!([fault(&[TIMED[2]], RUN[0]), fault(&[TIMED[2]], STATION)], [None, Some(304)]);
        assert_eq!([fault(&RUN[..1], RUN[0]), fault(&[STATION], TIMED[1])], [Some(305), Some(304)]);
    }
}
