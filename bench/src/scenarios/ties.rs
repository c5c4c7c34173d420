//! Scenario d: 64 stations, PRI, D 2, A 65,536, ties all the way: one priority, and neighbouring addresses.

use super::{filled, none, stations, PLACES, STATIONS};
use compare::records::{Arrival, Scenario, SetUp, PRI};

/// The lowest address. Its upper bits are 1 and 0 in turn, so that a tie goes right as often as left.
const LOWEST: u16 = 0b1010_1010_1000_0000;

/// The lower of the two priorities, so that the first half of the window is idle.
const PRIORITY: u32 = 1;

/// The lowest addresses win first. So many of their stations are filled again together, once they have sent all.
const REFILLED: u32 = 16;
const REFILL: u32 = REFILLED * (PLACES / STATIONS);

/// The slots from one refill to the next.
const APART: u32 = 6_900;

const LENGTH: u16 = 3;

pub fn scenario() -> Scenario {
    let set_up = SetUp {
        discipline: PRI,
        parameters: 2,
        addresses: 65_536,
        laxity_step: 1,
        stations: STATIONS as u8,
    };
    let arrivals = (0..PLACES).map(at_once).chain((0..).map(later));
    filled(set_up, stations(STATIONS, address, none), arrivals)
}

fn address(place: u32) -> u16 {
    LOWEST + place as u16
}

/// The packets that fill the queues at slot 0.
fn at_once(number: u32) -> Arrival {
    arrival(0, number % STATIONS)
}

fn later(number: u32) -> Arrival {
    arrival(APART * (1 + number / REFILL), number % REFILLED)
}

fn arrival(time: u32, station: u32) -> Arrival {
    Arrival {
        time,
        address: address(station),
        value: PRIORITY,
        length: LENGTH,
    }
}

#[cfg(test)]
mod tests {
    use super::*;
    use crate::shown::shown;

    #[test]
    fn every_contention_is_a_tie_of_many() {
        let shown = shown(&scenario());
        assert!(shown.contentions.iter().all(|contention| contention.tie_probes > 0));
        assert!(shown.contentions.iter().all(|contention| contention.busy >= 40));
        assert!(shown.end.waiting > 640);
    }

    #[test]
    fn most_ties_go_down_to_the_smallest_windows() {
        let shown = shown(&scenario());
        let contentions = shown.contentions.len();
        assert!(10 * shown.count(|contention| contention.smallest_tie == 1) > 4 * contentions);
        assert!(10 * shown.count(|contention| contention.smallest_tie <= 2) > 7 * contentions);
        assert!(shown.slots() > 24 * contentions);
        assert!(shown.end.sent >= 2_000);
    }
}
