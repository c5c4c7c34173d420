//! The four fixed scenarios that the programs are timed on.

mod circuits;
mod full;
mod light;
mod ties;

use compare::records::{Arrival, Scenario, SetUp, Station, LONGEST};

/// The most steps that a scenario can ask for.
const STEPS: u16 = u16::MAX;

/// The bytes of an arrival's record.
const ARRIVAL_BYTES: usize = 16;

/// The stations of a full segment, and the places of all their queues.
const STATIONS: u32 = 64;
const PLACES: u32 = 16 * STATIONS;

/// A scenario, the letter that it goes by, and what it is in a few words.
pub struct Fixed {
    pub letter: char,
    pub words: &'static str,
    pub scenario: Scenario,
}

/// All of them.
pub fn all() -> Vec<Fixed> {
    let fixed = |letter, words, scenario| Fixed {
        letter,
        words,
        scenario,
    };
    vec![
        fixed('a', "8 stations, PRI, light load", light::scenario()),
        fixed('b', "64 stations, RTDG, queues kept full, q 10", full::scenario()),
        fixed('c', "64 stations, RTVC, all circuits busy", circuits::scenario()),
        fixed(
            'd',
            "64 stations, PRI, D 2, A 65,536, ties all the way",
            ties::scenario(),
        ),
    ]
}

/// A scenario of the most steps, with as many of the arrivals as its bytes have room for.
fn filled(set_up: SetUp, stations: Vec<Station>, arrivals: impl Iterator<Item = Arrival>) -> Scenario {
    let mut scenario = Scenario {
        set_up,
        stations,
        arrivals: Vec::new(),
        steps: STEPS,
    };
    let room = LONGEST - scenario.bytes().len();
    scenario.arrivals = arrivals.take(room / ARRIVAL_BYTES).collect();
    scenario
}

/// So many stations, by the address and the capability of each.
fn stations(count: u32, address: fn(u32) -> u16, capability: fn(u32) -> u16) -> Vec<Station> {
    let station = |place| Station {
        address: address(place),
        capability: capability(place),
    };
    (0..count).map(station).collect()
}

/// The capability where circuits have no part.
fn none(_: u32) -> u16 {
    0
}

#[cfg(test)]
mod tests {
    use super::*;
    use crate::shown::shown;
    use compare::records::{PRI, RTDG, RTVC};

    /// The number that words name by a letter: 65536 of 'A 65,536'.
    fn named(words: &str, letter: &str) -> Option<u32> {
        let mut numbers = words.split(", ").filter_map(|part| part.strip_prefix(letter));
        numbers.find_map(|number| number.replace([' ', ','], "").parse().ok())
    }

    #[test]
    fn each_is_as_long_as_a_scenario_can_be() {
        for fixed in all() {
            let bytes = fixed.scenario.bytes().len();
            assert!(bytes <= LONGEST && bytes + ARRIVAL_BYTES > LONGEST, "{}", fixed.letter);
            assert_eq!(
                shown(&fixed.scenario).slots(),
                usize::from(u16::MAX),
                "{}",
                fixed.letter
            );
        }
    }

    #[test]
    fn the_words_begin_with_the_stations_and_the_discipline() {
        for fixed in all() {
            let discipline = match fixed.scenario.set_up.discipline {
                PRI => "PRI",
                RTDG => "RTDG",
                RTVC => "RTVC",
                other => panic!("discipline {other}"),
            };
            let begin = format!("{} stations, {discipline}, ", fixed.scenario.stations.len());
            assert!(fixed.words.starts_with(&begin), "{}", fixed.words);
        }
    }

    #[test]
    fn numbers_that_the_words_name_are_those_of_the_set_up() {
        for Fixed { words, scenario, .. } in all() {
            let set_up = scenario.set_up;
            let numbers = [set_up.parameters, set_up.addresses, set_up.laxity_step.into()];
            for (letter, number) in ["D", "A", "q"].into_iter().zip(numbers) {
                if let Some(named) = named(words, letter) {
                    assert_eq!(named, number, "{letter} of {words}");
                }
            }
        }
    }
}
