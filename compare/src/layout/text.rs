//! The lines of a layout, as words and numbers.

use crate::records::{Arrival, Scenario, SetUp, Station, LAST_SLOT, LONGEST_PACKET, PRI, RTDG, RTVC};

/// A word of a line, or a number.
#[derive(Clone, Copy, Debug, PartialEq, Eq)]
pub enum Part {
    Word(&'static str),
    Number(u64),
}

/// A line: its first words, and words with their numbers.
pub type Line = Vec<Part>;

use Part::{Number, Word};

/// A line of words and numbers.
pub fn line(first: &[&'static str], rest: &[(&'static str, u64)]) -> Line {
    let first = first.iter().map(|word| Word(word));
    first.chain(rest.iter().flat_map(|(word, number)| [Word(word), Number(*number)])).collect()
}

/// The names of the disciplines.
pub const DISCIPLINES: [&str; 3] = ["PRI", "RTDG", "RTVC"];

pub fn bus_line(set_up: &SetUp) -> Line {
    let numbers = [("D", set_up.parameters.into()), ("A", set_up.addresses.into()), ("q", set_up.laxity_step.into())];
    line(&["bus", DISCIPLINES[usize::from(set_up.discipline)]], &numbers)
}

pub fn station_line(discipline: u8, station: &Station) -> Line {
    let numbers = [("address", station.address.into()), ("capability", station.capability.into())];
    line(&["station"], &numbers[..if discipline == RTVC { 2 } else { 1 }])
}

/// An arrival's line, or that of an attempt.
pub fn arrival_line(set_up: &SetUp, arrival: &Arrival) -> Line {
    let first = if is_in_range(set_up, arrival) { "arrival" } else { "attempt" };
    timed_line(first, arrival)
}

/// The line of an arrival, by its first word.
pub fn timed_line(first: &'static str, arrival: &Arrival) -> Line {
    let Arrival { time, address, value, length } = *arrival;
    line(
        &[first],
        &[("time", time.into()), ("address", address.into()), ("value", value.into()), ("length", length.into())],
    )
}

pub fn run_line(steps: u16) -> Line {
    line(&["run"], &[("steps", steps.into())])
}

/// Whether an arrival's value and length are in their ranges.
fn is_in_range(set_up: &SetUp, arrival: &Arrival) -> bool {
    let value = match set_up.discipline {
        PRI => arrival.value < set_up.parameters,
        RTDG => arrival.value <= LAST_SLOT,
        _ => arrival.value == 0,
    };
    value && (1..=LONGEST_PACKET).contains(&arrival.length)
}

/// The lines of a scenario, one for each record.
pub fn lines(scenario: &Scenario) -> Vec<Line> {
    let set_up = &scenario.set_up;
    let stations = scenario.stations.iter().map(|station| station_line(set_up.discipline, station));
    let arrivals = scenario.arrivals.iter().map(|arrival| arrival_line(set_up, arrival));
    [bus_line(set_up)].into_iter().chain(stations).chain(arrivals).chain([run_line(scenario.steps)]).collect()
}

/// A scenario as it is shown.
pub fn layout_of(scenario: &Scenario) -> String {
    lines(scenario).iter().map(|line| shown(line) + "\n").collect()
}

/// A line as it is shown: addresses in hexadecimal, by four capital digits.
pub fn shown(line: &[Part]) -> String {
    let mut words = Vec::new();
    for (at, part) in line.iter().enumerate() {
        words.push(match part {
            Word(word) => word.to_string(),
            Number(number) if at > 0 && line[at - 1] == Word("address") => format!("0x{number:04X}"),
            Number(number) => number.to_string(),
        });
    }
    words.join(" ")
}

#[cfg(test)]
mod tests {
    use super::*;
    use crate::scenario::plain;

    #[test]
    fn a_scenario_is_shown_line_by_line() {
        let mut scenario = plain(RTVC);
        scenario.arrivals[1].value = 1;
        scenario.arrivals[2].length = 4_097;
        let layout = "bus RTVC D 5 A 300 q 1
station address 0x0007 capability 4
station address 0x0107 capability 0
station address 0x012B capability 2
arrival time 0 address 0x0107 value 0 length 2
attempt time 3 address 0x0007 value 1 length 1
attempt time 3 address 0x012B value 0 length 4097
run steps 40
";
        assert_eq!(layout_of(&scenario), layout);
    }

    #[test]
    fn an_arrival_outside_its_ranges_is_an_attempt() {
        let first = |discipline, value, length| {
            let scenario = plain(discipline);
            arrival_line(&scenario.set_up, &Arrival { value, length, ..scenario.arrivals[0] })[0]
        };
        let cases = [(PRI, 4, 5), (RTDG, LAST_SLOT, LAST_SLOT + 1), (RTVC, 0, 1)];
        for (discipline, good, above) in cases {
            assert_eq!([1, 4_096].map(|length| first(discipline, good, length)), [Word("arrival"); 2]);
            assert_eq!([0, 4_097].map(|length| first(discipline, good, length)), [Word("attempt"); 2]);
            assert_eq!(first(discipline, above, 1), Word("attempt"));
        }
    }
}
