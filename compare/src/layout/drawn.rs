//! Seeded layouts and scenarios to be shown, for what no table foresees. A class is a line; the classes go in rotation.

use super::text::{bus_line, layout_of, line, run_line, station_line, timed_line, Line, Part, DISCIPLINES};
use super::{right, wrong};
use crate::case::{Case, Shows};
use crate::records::{Arrival, Scenario, LAST_SLOT, LONGEST, LONGEST_PACKET, PRI, RTDG, RTVC};
use crate::scenario::{bus, damaged, undamaged, value, LARGE, LAXITY_STEPS, SMALL};
use crate::seeded::Numbers;
use Sort::{Bytes, Edges, Full, Lines, Plain, Spelled, Words};

/// What is done to the layouts of a class: they are written plainly, or spelled in all ways; or filled up to about the most
/// arrivals; or one or two numbers become others at the edges of ranges, or words, lines or bytes are left out, doubled, changed
/// or exchanged.
#[derive(Clone, Copy, PartialEq)]
enum Sort {
    Plain,
    Spelled,
    Full,
    Edges,
    Words,
    Lines,
    Bytes,
}

/// A class: how many stations, lines of arrivals and repeated ones, up to which slot they arrive, and what is done to it.
struct Class(&'static str, (u64, u64), (u64, u64), (u64, u64), u64, Sort);

#[rustfmt::skip]
const CLASSES: &[Class] = &[
    Class("arrivals in any order",  (1, 6),   (2, 20),   (0, 0), 12,     Plain),
    Class("repeated arrivals",      (1, 6),   (0, 8),    (1, 5), 40,     Spelled),
    Class("numbers at their edges", (1, 6),   (1, 4),    (1, 2), 90,     Edges),
    Class("words that are wrong",   (1, 6),   (1, 4),    (1, 2), 90,     Words),
    Class("spelled in all ways",    (1, 8),   (1, 8),    (0, 3), 70_000, Spelled),
    Class("lines that are wrong",   (1, 6),   (1, 4),    (0, 2), 90,     Lines),
    Class("many stations",          (16, 64), (3, 30),   (0, 3), 30,     Spelled),
    Class("bytes that are wrong",   (1, 4),   (1, 3),    (0, 2), 90,     Bytes),
    Class("many arrivals",          (1, 64),  (20, 400), (5, 9), 4_000,  Plain),
    Class("full, or too full",      (1, 64),  (0, 20),   (0, 3), 4_000,  Full),
];

/// The seeded layout of a number.
pub fn drawn(seed: u64, number: usize) -> Case {
    let Class(name, stations, arrivals, repeated, span, sort) = CLASSES[number % CLASSES.len()];
    let mut numbers = Numbers::of(seed, number as u64);
    let mut layout = Layout::bus(&mut numbers, stations);
    let (mut arrivals, mut repeated) = (numbers.between(arrivals), numbers.between(repeated));
    while arrivals + repeated > 0 {
        if numbers.below(arrivals + repeated) < arrivals {
            arrivals -= 1;
            layout.arrival(&mut numbers, span);
        } else {
            repeated -= 1;
            layout.repeated(&mut numbers, span);
        }
    }
    if sort == Full && !layout.is_filled(&mut numbers) {
        let at = layout.lines.len();
        layout.run(&mut numbers);
        return wrong(name, plain(&spelled(&mut numbers, &layout.lines, true)), at, 22);
    }
    layout.run(&mut numbers);
    layout.case(&mut numbers, name, sort)
}

/// The lines of a layout, and the scenario that they say.
struct Layout {
    lines: Vec<Line>,
    scenario: Scenario,
}

impl Layout {
    fn bus(numbers: &mut Numbers, stations: (u64, u64)) -> Layout {
        let (discipline, wanted) = (numbers.pick(&[PRI, RTDG, RTVC]), numbers.between(stations));
        let spaces = if wanted > 8 || numbers.once_in(2) { LARGE } else { SMALL };
        let scenario = bus(numbers, discipline, spaces, LAXITY_STEPS, wanted);
        let stations = scenario.stations.iter().map(|station| station_line(discipline, station));
        let lines = [bus_line(&scenario.set_up)].into_iter().chain(stations).collect();
        Layout { lines, scenario }
    }

    /// Mostly the address of a station.
    fn address(&self, numbers: &mut Numbers) -> u16 {
        let station = self.scenario.stations[numbers.place(self.scenario.stations.len())].address;
        if numbers.once_in(8) {
            numbers.pick(&[station ^ 1, station ^ 0x0100, u16::MAX])
        } else {
            station
        }
    }

    /// An arrival or, one in four, an attempt, which may be in its ranges or outside them.
    fn arrival(&mut self, numbers: &mut Numbers, span: u64) {
        let (time, address) = (numbers.below(span + 1) as u32, self.address(numbers));
        let value = value(numbers, &self.scenario, time);
        let arrival = Arrival { time, address, value, length: numbers.pick(LENGTHS) };
        let (first, arrival) =
            if numbers.once_in(4) { ("attempt", strange(numbers, arrival)) } else { ("arrival", arrival) };
        self.lines.push(timed_line(first, &arrival));
        self.scenario.arrivals.push(arrival);
    }

    /// Repeated arrivals, up to forty; none where the last would have a latest start past the last slot.
    fn repeated(&mut self, numbers: &mut Numbers, span: u64) {
        let (from, every) = (numbers.below(span + 1), numbers.pick(&[1, 1, 2, 3, 10, 100, 65_536, 100_000_000]));
        let to = from + numbers.below(if every > 100 { 5 } else { 40 }) * every + numbers.below(every);
        let laxity = numbers.pick(&[0, 1, 9, 1_000, 73_000_000]);
        let value = if self.is_of_laxities() { laxity } else { value(numbers, &self.scenario, 0) };
        if !self.is_of_laxities() || from + (to - from) / every * every + u64::from(value) <= LAST_SLOT.into() {
            let arrival = Arrival { time: 0, address: self.address(numbers), value, length: numbers.pick(LENGTHS) };
            self.repeat(every, from, to, arrival);
        }
    }

    fn is_of_laxities(&self) -> bool {
        self.scenario.set_up.discipline == RTDG
    }

    /// An arrival every so many slots; its value is the laxity in RTDG.
    fn repeat(&mut self, every: u64, from: u64, to: u64, arrival: Arrival) {
        let Arrival { address, value, length, .. } = arrival;
        let is_laxity = self.is_of_laxities();
        let value_word = if is_laxity { "laxity" } else { "value" };
        let slots = [("every", every), ("from", from), ("to", to)];
        let packet = [("address", address.into()), (value_word, value.into()), ("length", length.into())];
        self.lines.push(line(&["arrivals"], &[slots, packet].concat()));
        self.scenario.arrivals.extend((from..=to).step_by(every as usize).map(|time| {
            let time = time as u32;
            Arrival { time, value: if is_laxity { time + value } else { value }, ..arrival }
        }));
    }

    /// Repeated arrivals, about as many as there is room for. Yes if there is room.
    fn is_filled(&mut self, numbers: &mut Numbers) -> bool {
        let room = (LONGEST - self.scenario.bytes().len()) as u64 / 16;
        let (many, every) = (numbers.between((room - 2, room + 2)), numbers.pick(&[1, 2, 1_000]));
        let to = (many - 1) * every + numbers.below(every);
        self.repeat(every, 0, to, Arrival { time: 0, address: self.address(numbers), value: 0, length: 1 });
        many <= room
    }

    fn run(&mut self, numbers: &mut Numbers) {
        self.scenario.steps = numbers.pick(&[0, 1, 40, 65_535]);
        self.lines.push(run_line(self.scenario.steps));
        self.scenario.arrivals.sort_by_key(|arrival| arrival.time);
    }

    /// The layout as text. Those that stay right say their scenario; of others both programs say the same.
    fn case(mut self, numbers: &mut Numbers, name: &str, sort: Sort) -> Case {
        if sort == Edges {
            (0..numbers.between((1, 2))).for_each(|_| at_an_edge(numbers, &mut self.lines));
        }
        let is_plain = matches!(sort, Plain | Full);
        let mut words = spelled(numbers, &self.lines, is_plain);
        match sort {
            Words => (0..numbers.between((1, 2))).for_each(|_| wrong_word(numbers, &mut words)),
            Lines => (0..numbers.between((1, 2))).for_each(|_| wrong_line(numbers, &mut words)),
            _ => {}
        }
        let mut text = if is_plain { plain(&words) } else { set_out(numbers, &words) };
        if sort == Bytes {
            (0..numbers.between((1, 3))).for_each(|_| wrong_byte(numbers, &mut text));
        }
        if is_plain || sort == Spelled {
            right(name, text, &self.scenario)
        } else {
            Case::new(name, text, Vec::new())
        }
    }
}

const LENGTHS: &[u16] = &[1, 1, 2, 3, 20, LONGEST_PACKET - 1, LONGEST_PACKET];

/// An arrival whose value or length is mostly outside its range, or its address that of no station.
fn strange(numbers: &mut Numbers, arrival: Arrival) -> Arrival {
    let Arrival { address, value, length, .. } = arrival;
    Arrival {
        address: numbers.pick(&[address, address, address ^ 0x0100, u16::MAX]),
        value: numbers.pick(&[value, value, 1, 65_536, LAST_SLOT, LAST_SLOT + 1, u32::MAX]),
        length: numbers.pick(&[length, length, 0, LONGEST_PACKET, LONGEST_PACKET + 1, u16::MAX]),
        ..arrival
    }
}

/// Numbers at the edges of ranges.
const AT_EDGES: &[u64] = &[
    0,
    1,
    2,
    3,
    7,
    8,
    63,
    64,
    65,
    255,
    256,
    257,
    4_093,
    4_094,
    4_095,
    4_096,
    4_097,
    65_535,
    65_536,
    65_537,
    1_073_741_823,
    1_073_741_824,
    1_073_741_825,
    2_147_483_648,
    4_294_967_294,
    4_294_967_295,
    4_294_967_296,
    4_294_967_297,
    18_446_744_073_709_551_615,
];

/// A number becomes another at the edge of a range, or one more, or one less.
fn at_an_edge(numbers: &mut Numbers, lines: &mut [Line]) {
    let at = numbers.place(lines.len());
    let places: Vec<usize> =
        (0..lines[at].len()).filter(|place| matches!(lines[at][*place], Part::Number(_))).collect();
    let place = numbers.pick(&places);
    if let Part::Number(now) = lines[at][place] {
        let edge = numbers.pick(AT_EDGES);
        lines[at][place] = Part::Number(numbers.pick(&[edge, edge, edge, edge, now + 1, now.saturating_sub(1)]));
    }
}

/// The words of each line; where they are not plain, numbers in decimal, or in hexadecimal by digits that are small, capital or
/// both, with zeros before them or none.
fn spelled(numbers: &mut Numbers, lines: &[Line], plainly: bool) -> Vec<Vec<String>> {
    let mut word = |part: &Part| match part {
        Part::Word(word) => word.to_string(),
        Part::Number(number) => match if plainly { 0 } else { numbers.below(9) } {
            0..=3 => number.to_string(),
            4 => format!("0x{number:x}"),
            5 => format!("0x{number:X}"),
            6 => format!("0x{number:04X}"),
            7 => format!("0x{number:012x}"),
            _ => format!("0x{number:x}").replace('a', "A").replace('d', "D").replace('f', "F"),
        },
    };
    lines.iter().map(|line| line.iter().map(&mut word).collect()).collect()
}

/// Words that stand where others should: those of all lines, and some that are none of them.
const VOCABULARY: &[&str] = &[
    "bus",
    "station",
    "arrival",
    "arrivals",
    "attempt",
    "run",
    "D",
    "A",
    "q",
    "address",
    "capability",
    "time",
    "value",
    "length",
    "every",
    "from",
    "to",
    "laxity",
    "steps",
    "d",
    "Q",
    "Address",
    "N",
    "x",
    "0x",
    "0X10",
    "0107",
    "00",
    "-1",
    "1,000",
    "0xG",
    "1a",
    "#",
    "1#2",
    "address#",
    "\u{0}",
    "\u{b}",
    "\u{fc}",
];

/// A word is left out, doubled, changed, exchanged with another of its line, or put in.
fn wrong_word(numbers: &mut Numbers, lines: &mut [Vec<String>]) {
    let words = &mut lines[numbers.place(lines.len())];
    if words.is_empty() {
        return;
    }
    let (one, other) = (numbers.place(words.len()), numbers.place(words.len()));
    let word =
        if numbers.once_in(3) { numbers.pick(AT_EDGES).to_string() } else { numbers.pick(VOCABULARY).to_string() };
    match numbers.below(6) {
        0 => drop(words.remove(one)),
        1 => words.insert(one, words[one].clone()),
        2 => words.swap(one, other),
        3 => words.insert(numbers.place(words.len() + 1), word),
        _ => words[one] = word,
    }
}

/// A line is left out, doubled, cut, exchanged with another, or another discipline's.
fn wrong_line(numbers: &mut Numbers, lines: &mut Vec<Vec<String>>) {
    let (one, other) = (numbers.place(lines.len()), numbers.place(lines.len()));
    match numbers.below(6) {
        0 if lines.len() > 1 => drop(lines.remove(one)),
        1 => lines.insert(other, lines[one].clone()),
        2 => lines[one].truncate(other),
        3 => lines.truncate(one + 1),
        4 if lines[0].len() > 1 => lines[0][1] = numbers.pick(&DISCIPLINES).to_string(),
        _ => lines.swap(one, other),
    }
}

/// Lines of words with one space between them.
fn plain(lines: &[Vec<String>]) -> Vec<u8> {
    lines.iter().map(|words| words.join(" ") + "\n").collect::<String>().into_bytes()
}

/// Lines of words with blanks between and around them, comments, and lines that say nothing.
fn set_out(numbers: &mut Numbers, lines: &[Vec<String>]) -> Vec<u8> {
    let mut text = String::new();
    for words in lines {
        while numbers.once_in(4) {
            text += numbers.pick(&["\n", "\r\n", " \t\n", "# run steps 3\n", "   # ##\r\n", "#\n"]);
        }
        text += numbers.pick(&["", "", "", "  ", "\t", "\r"]);
        for (at, word) in words.iter().enumerate() {
            let between = numbers.pick(&[" ", " ", " ", "  ", "\t", " \t ", "\r"]);
            text += if at > 0 { between } else { "" };
            text += word;
        }
        text += numbers.pick(&["\n", "\n", "\r\n", " \n", "\t# a comment\n", "#\n", "#x 1 2\r\n"]);
    }
    match numbers.below(4) {
        0 => drop(text.pop()),
        1 => text += "# the end",
        2 => text += "\n \n",
        _ => {}
    }
    text.into_bytes()
}

/// A byte is left out, changed or put in.
fn wrong_byte(numbers: &mut Numbers, text: &mut Vec<u8>) {
    let (at, any) = (numbers.place(text.len()), numbers.number() as u8);
    let byte = numbers.pick(&[b'#', b'\n', b' ', b'\t', b'\r', b'0', b'x', b'9', b'a', b'F', 0, 11, 0xFF, any]);
    match numbers.below(3) {
        0 => drop(text.remove(at)),
        1 => text[at] = byte,
        _ => text.insert(at, byte),
    }
}

/// The seeded scenario to be shown of a number: one in two has arrivals of any sort, one in eight is damaged.
pub fn drawn_shown(seed: u64, number: usize) -> Case {
    let mut numbers = Numbers::of(seed, number as u64);
    let mut scenario = undamaged(seed, number);
    if numbers.once_in(2) {
        for at in 0..scenario.arrivals.len() {
            if numbers.once_in(4) {
                scenario.arrivals[at] = strange(&mut numbers, scenario.arrivals[at]);
            }
        }
        if let Some(last) = scenario.arrivals.last_mut() {
            last.time = numbers.pick(&[last.time, last.time, LAST_SLOT, u32::MAX]);
        }
    }
    if numbers.once_in(8) {
        return Case::new("damaged", damaged(&mut numbers, &scenario), Vec::new());
    }
    Case::new("shown", scenario.bytes(), vec![Shows::Whole(layout_of(&scenario))])
}

#[cfg(test)]
mod tests {
    use super::*;
    use std::collections::BTreeSet;

    /// A hundred layouts of a class.
    fn layouts(class: &str) -> Vec<Case> {
        let first = CLASSES.iter().position(|Class(name, ..)| *name == class).expect("there is such a class");
        (0..100).map(|at| drawn(1, at * CLASSES.len() + first)).collect()
    }

    /// How many of them are so, by their texts.
    fn many(class: &str, are: impl Fn(&str) -> bool) -> usize {
        layouts(class).iter().filter(|case| are(&String::from_utf8_lossy(&case.input))).count()
    }

    #[test]
    fn numbers_blanks_and_comments_are_of_all_sorts() {
        for part in ["0x", "0x0000", "#", "\t", "\r\n", "\n\n", "# run", "a comment", "attempt", "laxity", "capability"]
        {
            assert!(many("spelled in all ways", |text| text.contains(part)) > 10, "{part:?}");
        }
        assert!(many("spelled in all ways", |text| !text.ends_with('\n')) > 20);
        let letters = |text: &str, is: fn(char) -> bool| text.split("0x").skip(1).any(|digits| digits.starts_with(is));
        assert!(many("spelled in all ways", |text| letters(text, |digit| digit.is_ascii_lowercase())) > 20);
        assert!(many("spelled in all ways", |text| letters(text, |digit| digit.is_ascii_uppercase())) > 20);
    }

    #[test]
    fn times_fall_and_are_equal() {
        let times = |text: &str| -> Vec<u32> {
            text.split("time ").skip(1).filter_map(|rest| rest.split(' ').next()?.parse().ok()).collect()
        };
        let falls = |text: &str| times(text).windows(2).any(|pair| pair[0] > pair[1]);
        let repeats = |text: &str| times(text).iter().collect::<BTreeSet<_>>().len() < times(text).len();
        assert!(many("arrivals in any order", falls) > 80 && many("arrivals in any order", repeats) > 50);
    }

    #[test]
    fn some_are_full_and_some_too_full() {
        let is_wrong = |case: &Case| matches!(&case.shows[..], [Shows::Whole(told)] if told.ends_with(" 22\n"));
        let wrong = layouts("full, or too full").into_iter().filter(is_wrong);
        assert!((20..60).contains(&wrong.count()));
    }

    #[test]
    fn what_is_shown_has_attempts() {
        let shown = |case: Case| match &case.shows[..] {
            [Shows::Whole(layout)] => layout.clone(),
            _ => String::new(),
        };
        let layouts: Vec<String> = (0..100).map(|number| shown(drawn_shown(1, number))).collect();
        let many = |part: &str| layouts.iter().filter(|layout| layout.contains(part)).count();
        assert!(
            many("\nattempt ") > 20 && many("\narrival ") > 80 && many(" capability ") > 10 && many("bus RTDG") > 10
        );
        assert!((5..20).contains(&layouts.iter().filter(|layout| layout.is_empty()).count()));
    }
}
