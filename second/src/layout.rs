//! Reads a layout, a scenario as a text that a person writes: to the scenario's bytes, or to the first
//! line that is wrong and its fault.

use crate::admission::{length_in_range, value_in_range};
use crate::fault::{Fault, Word, Wrong};
use crate::records::{arrival_record, run_record, scenario_bytes, set_up_record, station_record};
use crate::refusal::Refusal;
use crate::scenario::{Arrival, LONGEST_SCENARIO};
use crate::set_up::{check_settings, check_station};
use crate::state::{Settings, Station, PRI, RTDG, RTVC, STATIONS};
use crate::words::{lines, number, words};

/// Two bytes hold an address, a length and the steps.
const MOST_OF_TWO_BYTES: u32 = 65_535;

/// The bytes of a layout's scenario; "The first line that is wrong decides".
pub fn read_layout(text: &[u8]) -> Result<Vec<u8>, Wrong> {
    let mut layout = Layout::EMPTY;
    let mut last = 0;
    for (line, said) in lines(text) {
        layout
            .take_line(said)
            .map_err(|fault| Wrong { line, fault })?;
        last = line;
    }
    // "At the end of the text, where there was no run: .., in the text's last line."
    layout.bytes().ok_or(Wrong {
        line: last,
        fault: layout.expected(),
    })
}

/// What the lines so far say.
struct Layout {
    bus: Option<Settings>,
    stations: Vec<Station>,
    arrivals: Vec<Arrival>,
    run: Option<u16>,
}

/// "The order of lines is: one bus, 1 to 64 stations, any arrivals, .., one run."
#[derive(Clone, Copy, PartialEq, Eq)]
enum Place {
    Start,
    AfterBus,
    AfterStation,
    AfterArrival,
    AfterRun,
}

impl Layout {
    const EMPTY: Layout = Layout {
        bus: None,
        stations: Vec::new(),
        arrivals: Vec::new(),
        run: None,
    };

    fn place(&self) -> Place {
        if self.run.is_some() {
            Place::AfterRun
        } else if !self.arrivals.is_empty() {
            Place::AfterArrival
        } else if !self.stations.is_empty() {
            Place::AfterStation
        } else if self.bus.is_some() {
            Place::AfterBus
        } else {
            Place::Start
        }
    }

    /// The fault of a line whose first word has no place here.
    fn expected(&self) -> Fault {
        match self.place() {
            Place::Start => Fault::NotBus,
            Place::AfterBus => Fault::NotStation,
            Place::AfterStation => Fault::NotAfterStation,
            Place::AfterArrival => Fault::NotAfterArrival,
            Place::AfterRun => Fault::AfterRun,
        }
    }

    /// Takes a line; "A line without a word says nothing."
    fn take_line(&mut self, line: &[u8]) -> Result<(), Fault> {
        let mut words = words(line);
        let Some(first) = words.next() else {
            return Ok(());
        };
        match (self.place(), first) {
            (Place::Start, b"bus") => self.take_bus(words),
            (Place::AfterBus | Place::AfterStation, b"station") => self.take_station(words),
            // "with one of these it is 6".
            (Place::AfterBus, b"arrival" | b"arrivals" | b"attempt" | b"run") => {
                Err(Refusal::Stations.into())
            }
            (Place::AfterStation | Place::AfterArrival, b"arrival") => self.take_arrival(words),
            (Place::AfterStation | Place::AfterArrival, b"arrivals") => self.take_arrivals(words),
            (Place::AfterStation | Place::AfterArrival, b"attempt") => self.take_attempt(words),
            (Place::AfterStation | Place::AfterArrival, b"run") => self.take_run(words),
            _ => Err(self.expected()),
        }
    }

    /// A bus: the discipline, "**3**, **4**, **5**".
    fn take_bus<'a>(&mut self, mut words: impl Iterator<Item = &'a [u8]>) -> Result<(), Fault> {
        let discipline = match words.next() {
            Some(b"PRI") => PRI,
            Some(b"RTDG") => RTDG,
            Some(b"RTVC") => RTVC,
            _ => return Err(Refusal::Discipline.into()),
        };
        let [d, a, q] = numbers(words, [Word::D, Word::A, Word::Q])?;
        // Any N in its range: "it is the number of stations", which is tried with each of them.
        let settings = Settings {
            discipline,
            d,
            a,
            q,
            n: 1,
        };
        check_settings(&settings)?;
        self.bus = Some(settings);
        Ok(())
    }

    /// The settings of the bus line; past it they are there.
    fn settings(&self) -> Settings {
        self.bus.unwrap_or(Settings::ZERO)
    }

    /// A station: "**6** where it is the 65th; **7** to **10** as set-up tries them".
    fn take_station<'a>(&mut self, words: impl Iterator<Item = &'a [u8]>) -> Result<(), Fault> {
        // "in RTVC then `capability`".
        let [address, capability] = if self.settings().discipline == RTVC {
            numbers(words, [Word::Address, Word::Capability])?
        } else {
            let [address] = numbers(words, [Word::Address])?;
            [address, 0]
        };
        let station = Station {
            address,
            capability,
        };
        if self.stations.len() == STATIONS {
            return Err(Refusal::Stations.into());
        }
        check_station(&self.settings(), &station, &self.stations)?;
        self.stations.push(station);
        Ok(())
    }

    fn take_arrival<'a>(&mut self, words: impl Iterator<Item = &'a [u8]>) -> Result<(), Fault> {
        let [time, address, value, length] = numbers(
            words,
            [Word::Time, Word::Address, Word::Value, Word::Length],
        )?;
        self.check_arrivals(address, value.into(), length, 1)?;
        self.arrivals.push(Arrival {
            time,
            address,
            value,
            length,
        });
        Ok(())
    }

    /// "from the first slot on, every so many slots, none past the second slot, which may be one of them".
    fn take_arrivals<'a>(&mut self, words: impl Iterator<Item = &'a [u8]>) -> Result<(), Fault> {
        let laxities = self.settings().discipline == RTDG;
        let of_value = if laxities { Word::Laxity } else { Word::Value };
        let [every, from, to, address, value, length] = numbers(
            words,
            [
                Word::Every,
                Word::From,
                Word::To,
                Word::Address,
                of_value,
                Word::Length,
            ],
        )?;
        if every == 0 {
            return Err(Fault::EveryZero);
        }
        if to < from {
            return Err(Fault::ToBelowFrom);
        }
        let later = (to - from) / every;
        let last = from + later * every;
        // "in RTDG each has as value, its latest start, its time and the `laxity` after it".
        let value_at = |time: u32| u64::from(value) + if laxities { u64::from(time) } else { 0 };
        // "12 is tried of the last one's value, which is the largest, and 22 of all of them".
        self.check_arrivals(address, value_at(last), length, u64::from(later) + 1)?;
        self.arrivals.extend((0..=later).map(|place| {
            let time = from + place * every;
            Arrival {
                time,
                address,
                value: value_at(time) as u32,
                length,
            }
        }));
        Ok(())
    }

    /// "An attempt is taken as it is".
    fn take_attempt<'a>(&mut self, words: impl Iterator<Item = &'a [u8]>) -> Result<(), Fault> {
        let [time, address, value, length] = numbers(
            words,
            [Word::Time, Word::Address, Word::Value, Word::Length],
        )?;
        check_address(address)?;
        if length > MOST_OF_TWO_BYTES {
            return Err(Fault::LengthAbove);
        }
        self.check_room(1)?;
        self.arrivals.push(Arrival {
            time,
            address,
            value,
            length,
        });
        Ok(())
    }

    /// So many arrivals, of which this is the largest value: "**306** ..; **12**; **13**; **22** ..".
    fn check_arrivals(
        &self,
        address: u32,
        value: u64,
        length: u32,
        many: u64,
    ) -> Result<(), Fault> {
        check_address(address)?;
        let value = u32::try_from(value).map_err(|_| Refusal::Value)?;
        if !value_in_range(&self.settings(), value) {
            return Err(Refusal::Value.into());
        }
        if !length_in_range(length) {
            return Err(Refusal::Length.into());
        }
        self.check_room(many)
    }

    /// "**22** where the scenario would have more than 65,536 bytes with it".
    fn check_room(&self, many: u64) -> Result<(), Fault> {
        let arrivals = self.arrivals.len() as u64 + many;
        if scenario_bytes(self.stations.len(), arrivals) > LONGEST_SCENARIO as u64 {
            return Err(Refusal::ScenarioTooLong.into());
        }
        Ok(())
    }

    fn take_run<'a>(&mut self, words: impl Iterator<Item = &'a [u8]>) -> Result<(), Fault> {
        let [steps] = numbers(words, [Word::Steps])?;
        self.run = Some(u16::try_from(steps).map_err(|_| Fault::StepsAbove)?);
        Ok(())
    }

    /// The scenario's bytes, where there was a run.
    fn bytes(&self) -> Option<Vec<u8>> {
        let steps = self.run?;
        // "N is not written: it is the number of stations."
        let settings = Settings {
            n: self.stations.len() as u64,
            ..self.settings()
        };
        // "they stand in order of time, and those of equal time in the order of their lines".
        let mut arrivals = self.arrivals.clone();
        arrivals.sort_by_key(|arrival| arrival.time);
        let mut bytes = set_up_record(&settings);
        bytes.extend(self.stations.iter().flat_map(station_record));
        bytes.extend(arrivals.iter().flat_map(arrival_record));
        bytes.extend(run_record(steps));
        Some(bytes)
    }
}

/// "**306** where the address is above 65,535".
fn check_address(address: u32) -> Result<(), Fault> {
    if address > MOST_OF_TWO_BYTES {
        return Err(Fault::AddressAbove);
    }
    Ok(())
}

/// "Its words and numbers, from left to right", "and nothing after them".
fn numbers<'a, const N: usize>(
    mut words: impl Iterator<Item = &'a [u8]>,
    expected: [Word; N],
) -> Result<[u32; N], Fault> {
    let mut numbers = [0; N];
    for (place, word) in numbers.iter_mut().zip(expected) {
        if words.next() != Some(word.text().as_bytes()) {
            return Err(Fault::NotWord(word));
        }
        *place = words.next().and_then(number).ok_or(Fault::NoNumber(word))?;
    }
    match words.next() {
        None => Ok(numbers),
        Some(_) => Err(Fault::GoesOn),
    }
}

#[cfg(test)]
mod tests {
    use super::read_layout;
    use crate::scenario::{read, Arrival, Scenario};

    const PRI: &str = "bus PRI D 4 A 8 q 1\nstation address 1\nstation address 5\n";
    const RTDG: &str = "bus RTDG D 4 A 8 q 4\nstation address 1\n";
    const RTVC: &str = "bus RTVC D 4 A 8 q 1\nstation address 1 capability 3\n";

    fn scenario_of(text: &str) -> Scenario {
        let bytes = read_layout(text.as_bytes()).unwrap();
        read(&bytes).unwrap()
    }

    /// The arrivals of some lines between a beginning and a run: time, address, value, length.
    fn arrivals_of(begin: &str, lines: &str) -> Vec<[u32; 4]> {
        let numbers = |arrival: &Arrival| {
            let &Arrival {
                time,
                address,
                value,
                length,
            } = arrival;
            [time, address, value, length]
        };
        let scenario = scenario_of(&format!("{begin}{lines}\nrun steps 9"));
        scenario.arrivals.iter().map(numbers).collect()
    }

    /// The line and the number of what is wrong.
    fn fault_of(text: &str) -> (usize, u32) {
        let wrong = read_layout(text.as_bytes()).unwrap_err();
        (wrong.line, wrong.fault.number())
    }

    /// The same of a line behind a beginning, whose number that line has to have.
    fn fault_after(begin: &str, line: &str) -> u32 {
        let (at, number) = fault_of(&format!("{begin}{line}\nrun steps 9\n"));
        assert_eq!(at, begin.lines().count() + 1, "{line}");
        number
    }

    #[test]
    fn the_worked_example() {
        let text = "# PRI, three stations\nbus PRI D 4 A 8 q 1\n\nstation address 1\nstation address 0x5\n\
                    station address 0x0006 # the last\narrival time 0 address 5 value 2 length 3\n\
                    arrival time 0 address 6 value 2 length 1#\n\tarrival time 0\taddress 1 value 3 length 2\r\n\
                    run steps 14";
        let worked = include_bytes!("../../examples/worked.scenario");
        assert_eq!(read_layout(text.as_bytes()).unwrap(), worked);
    }

    #[test]
    fn the_examples_say_their_scenarios() {
        let file = |name: &str| std::fs::read(format!("../examples/{name}")).unwrap();
        for name in [
            "chatty",
            "pri",
            "rtdg",
            "rtvc",
            "layouts/three",
            "turned-away",
            "upper-byte",
            "waits",
            "worked",
        ] {
            let bytes = read_layout(&file(&format!("{name}.layout")));
            assert_eq!(bytes.unwrap(), file(&format!("{name}.scenario")), "{name}");
        }
        let refused = String::from_utf8(file("refused.layout")).unwrap();
        assert_eq!(fault_of(&refused), (6, 8));
    }

    #[test]
    fn n_is_the_number_of_stations() {
        for many in [1, 2, 63, 64] {
            let stations: String = (0..many)
                .map(|at| format!("station address {at}\n"))
                .collect();
            let text = format!("bus PRI D 4 A 64 q 1\n{stations}run steps 1\n");
            let state = scenario_of(&text).state;
            assert_eq!(state.settings.n, many);
            assert_eq!(state.stations[many as usize - 1].address, many as u32 - 1);
        }
    }

    #[test]
    fn arrivals_stand_in_order_of_time_and_then_of_lines() {
        let lines = "arrival time 7 address 1 value 0 length 1\n\
                     arrivals every 7 from 0 to 14 address 5 value 1 length 2\n\
                     attempt time 7 address 9 value 9 length 0\n\
                     arrival time 0 address 5 value 3 length 4";
        let expected = [
            [0, 5, 1, 2],
            [0, 5, 3, 4],
            [7, 1, 0, 1],
            [7, 5, 1, 2],
            [7, 9, 9, 0],
            [14, 5, 1, 2],
        ];
        assert_eq!(arrivals_of(PRI, lines), expected);
    }

    #[test]
    fn repeated_arrivals_end_with_the_last_that_is_not_past_to() {
        let times = |line: &str| -> Vec<u32> {
            let line = format!("arrivals {line} address 1 value 0 length 1");
            arrivals_of(PRI, &line)
                .iter()
                .map(|arrival| arrival[0])
                .collect()
        };
        assert_eq!(times("every 10 from 5 to 40"), [5, 15, 25, 35]);
        assert_eq!(times("every 10 from 0 to 40"), [0, 10, 20, 30, 40]);
        assert_eq!(times("every 3 from 8 to 8"), [8]);
        assert_eq!(
            times("every 4294967295 from 0 to 4294967295"),
            [0, u32::MAX]
        );
        assert_eq!(
            times("every 1 from 4294967294 to 4294967295"),
            [u32::MAX - 1, u32::MAX]
        );
    }

    #[test]
    fn a_laxity_is_after_each_ones_time() {
        let line = "arrivals every 10 from 5 to 26 address 1 laxity 3 length 1";
        assert_eq!(
            arrivals_of(RTDG, line),
            [[5, 1, 8, 1], [15, 1, 18, 1], [25, 1, 28, 1]]
        );
        let last = "arrivals every 10 from 5 to 26 address 1 laxity 1073741799 length 1";
        assert_eq!(arrivals_of(RTDG, last)[2], [25, 1, 1_073_741_824, 1]);
        let line = "arrival time 5 address 1 value 3 length 1";
        assert_eq!(arrivals_of(RTDG, line), [[5, 1, 3, 1]]);
    }

    #[test]
    fn an_attempt_may_have_any_value_and_length() {
        let line = "attempt time 4294967295 address 65535 value 4294967295 length 65535";
        for begin in [PRI, RTDG, RTVC] {
            assert_eq!(
                arrivals_of(begin, line),
                [[u32::MAX, 65_535, u32::MAX, 65_535]]
            );
        }
    }

    #[test]
    fn no_station_has_to_have_the_address() {
        let line = "arrival time 0 address 0xffff value 0 length 1";
        assert_eq!(arrivals_of(PRI, line), [[0, 65_535, 0, 1]]);
    }

    #[test]
    fn capabilities_are_of_rtvc_alone() {
        let station = scenario_of(&format!("{RTVC}run steps 1")).state.stations[0];
        assert_eq!((station.address, station.capability), (1, 3));
        assert_eq!(
            fault_after("bus PRI D 4 A 8 q 1\n", "station address 1 capability 0"),
            300
        );
        assert_eq!(
            fault_after("bus RTDG D 4 A 8 q 1\n", "station address 1 capability 0"),
            300
        );
        assert_eq!(
            fault_after("bus RTVC D 4 A 8 q 1\n", "station address 1"),
            105
        );
    }

    #[test]
    fn a_first_word_has_its_place() {
        for word in ["station", "arrival", "run", "Bus", "x"] {
            assert_eq!(fault_after("", word), 301, "{word}");
        }
        for (word, number) in [
            ("bus", 302),
            ("x", 302),
            ("arrival", 6),
            ("arrivals", 6),
            ("attempt", 6),
            ("run", 6),
        ] {
            assert_eq!(fault_after("bus PRI D 4 A 8 q 1\n", word), number, "{word}");
        }
        for word in ["bus", "x", "Station"] {
            assert_eq!(fault_after(PRI, word), 303, "{word}");
        }
        for line in [
            "arrival time 0 address 1 value 0 length 1\n",
            "arrivals every 1 from 0 to 0 address 1 value 0 length 1\n",
            "attempt time 0 address 1 value 9 length 1\n",
        ] {
            for word in ["bus", "x", "station"] {
                assert_eq!(fault_after(&format!("{PRI}{line}"), word), 304, "{word}");
            }
        }
        for word in ["run", "arrival", "bus", "x"] {
            assert_eq!(
                fault_after(&format!("{PRI}run steps 3\n"), word),
                305,
                "{word}"
            );
        }
    }

    #[test]
    fn a_text_that_ends_without_a_run() {
        assert_eq!(fault_of(""), (1, 301));
        assert_eq!(fault_of("# nothing\n\n"), (3, 301));
        assert_eq!(fault_of("bus PRI D 4 A 8 q 1"), (1, 302));
        assert_eq!(fault_of("bus PRI D 4 A 8 q 1\n"), (2, 302));
        assert_eq!(fault_of(PRI), (4, 303));
        let arrival = "arrival time 0 address 1 value 0 length 1";
        assert_eq!(fault_of(&format!("{PRI}{arrival}")), (4, 304));
        assert_eq!(
            fault_of(&format!("{PRI}{arrival}\n\n\n# no run\n")),
            (8, 304)
        );
    }

    #[test]
    fn words_and_numbers_from_left_to_right() {
        let line = "arrivals every 1 from 0 to 0 address 1 value 0 length 1";
        let words: Vec<&str> = line.split(' ').collect();
        let faults = [109, 209, 110, 210, 111, 211, 104, 204, 107, 207, 108, 208];
        for (at, number) in (1..).zip(faults) {
            let mut changed = words.clone();
            changed[at] = "x";
            assert_eq!(fault_after(PRI, &changed.join(" ")), number);
            assert_eq!(fault_after(PRI, &words[..at].join(" ")), number);
            *changed.last_mut().unwrap() = "y";
            assert_eq!(fault_after(PRI, &changed.join(" ")), number);
        }
        assert_eq!(fault_after(PRI, &format!("{line} x")), 300);
        assert_eq!(fault_after(RTDG, line), 112);
        assert_eq!(
            fault_after(RTDG, &line.replace("value 0", "laxity -1")),
            212
        );
    }

    #[test]
    fn what_a_bus_says() {
        for (line, number) in [
            ("bus", 2),
            ("bus pri D 4 A 8 q 1", 2),
            ("bus 0 D 4 A 8 q 1", 2),
            ("bus PRI D 1 A 1 q 2", 3),
            ("bus PRI D 65537 A 8 q 1", 3),
            ("bus PRI D 65536 A 65537 q 2", 4),
            ("bus PRI D 2 A 65536 q 2", 5),
            ("bus RTDG D 2 A 2 q 0", 5),
            ("bus RTDG D 2 A 2 q 65536", 5),
        ] {
            assert_eq!(fault_after("", line), number, "{line}");
        }
        for line in ["bus RTDG D 2 A 65536 q 65535", "bus RTVC D 65536 A 2 q 1"] {
            assert_eq!(fault_after(&format!("{line}\n"), "x"), 302, "{line}");
        }
    }

    #[test]
    fn what_a_station_says() {
        assert_eq!(fault_after(PRI, "station address 8"), 7);
        assert_eq!(fault_after(PRI, "station address 4294967295"), 7);
        assert_eq!(fault_after(PRI, "station address 0x5"), 8);
        assert_eq!(fault_after(RTVC, "station address 2 capability 4"), 9);
        assert_eq!(fault_after(RTVC, "station address 2 capability 3"), 10);
        assert_eq!(fault_after(RTVC, "station address 1 capability 4"), 8);
        let stations: String = (0..64)
            .map(|at| format!("station address {at}\n"))
            .collect();
        let full = format!("bus PRI D 4 A 64 q 1\n{stations}");
        assert_eq!(fault_after(&full, "station address 64"), 6);
        assert_eq!(fault_after(&full, "station address x"), 204);
    }

    #[test]
    fn what_an_arrival_says() {
        for (begin, line, number) in [
            (PRI, "arrival time 0 address 65536 value 4 length 0", 306),
            (PRI, "arrival time 0 address 1 value 4 length 0", 12),
            (
                RTDG,
                "arrival time 0 address 1 value 1073741825 length 0",
                12,
            ),
            (RTVC, "arrival time 0 address 1 value 1 length 0", 12),
            (PRI, "arrival time 0 address 1 value 3 length 0", 13),
            (
                RTDG,
                "arrival time 0 address 1 value 1073741824 length 4097",
                13,
            ),
            (RTVC, "arrival time 0 address 1 value 0 length 0x10001", 13),
        ] {
            assert_eq!(fault_after(begin, line), number, "{line}");
        }
    }

    #[test]
    fn what_repeated_arrivals_say() {
        for (begin, line, number) in [
            (
                PRI,
                "every 0 from 2 to 1 address 65536 value 4 length 0",
                309,
            ),
            (
                PRI,
                "every 1 from 2 to 1 address 65536 value 4 length 0",
                310,
            ),
            (
                PRI,
                "every 1 from 0 to 9999 address 65536 value 4 length 0",
                306,
            ),
            (PRI, "every 1 from 0 to 9999 address 1 value 4 length 0", 12),
            (PRI, "every 1 from 0 to 9999 address 1 value 3 length 0", 13),
            (
                PRI,
                "every 1 from 0 to 4294967295 address 1 value 3 length 1",
                22,
            ),
            (
                RTDG,
                "every 10 from 5 to 26 address 1 laxity 1073741800 length 1",
                12,
            ),
            (
                RTDG,
                "every 1 from 4294967295 to 4294967295 address 1 laxity 4294967295 length 1",
                12,
            ),
            (
                RTDG,
                "every 1 from 4294967295 to 4294967295 address 1 laxity 1 length 1",
                12,
            ),
        ] {
            assert_eq!(
                fault_after(begin, &format!("arrivals {line}")),
                number,
                "{line}"
            );
        }
    }

    #[test]
    fn what_an_attempt_and_a_run_say() {
        assert_eq!(
            fault_after(PRI, "attempt time 0 address 65536 value 9 length 65536"),
            306
        );
        assert_eq!(
            fault_after(PRI, "attempt time 0 address 65535 value 9 length 65536"),
            307
        );
        assert_eq!(fault_after(PRI, "run steps 65536"), 308);
        assert_eq!(scenario_of(&format!("{PRI}run steps 65535")).steps, 65_535);
    }

    #[test]
    fn no_scenario_has_more_than_65536_bytes() {
        // 16 + 2 * 8 + 4,093 * 16 + 6 bytes.
        let most = format!("{PRI}arrivals every 1 from 0 to 4092 address 1 value 0 length 1\n");
        let bytes = read_layout(format!("{most}run steps 1").as_bytes()).unwrap();
        assert_eq!(bytes.len(), 65_526);
        for line in [
            "arrival time 0 address 1 value 0 length 1",
            "arrivals every 1 from 0 to 0 address 1 value 0 length 1",
            "attempt time 0 address 1 value 9 length 0",
        ] {
            assert_eq!(fault_after(&most, line), 22, "{line}");
        }
        assert_eq!(
            fault_after(
                PRI,
                "arrivals every 1 from 0 to 4093 address 1 value 0 length 1"
            ),
            22
        );
        // 16 + 64 * 8 + 4,062 * 16 + 6 bytes.
        let stations: String = (0..64)
            .map(|at| format!("station address {at}\n"))
            .collect();
        let begin = format!("bus PRI D 4 A 64 q 1\n{stations}");
        let repeated =
            |to: u32| format!("arrivals every 2 from 0 to {to} address 1 value 0 length 1");
        assert_eq!(arrivals_of(&begin, &repeated(8_123)).len(), 4_062);
        assert_eq!(fault_after(&begin, &repeated(8_124)), 22);
    }

    #[test]
    fn the_first_line_that_is_wrong_decides() {
        assert_eq!(fault_of("\nbus PRI D x\nstation\n"), (2, 201));
        assert_eq!(
            fault_of(&format!("{PRI}station address 1\nrun steps 65536\nrun")),
            (4, 8)
        );
    }
}
