//! Scenario b: 64 stations, RTDG, q 10, queues kept full. Packets arrive somewhat faster than they are sent: some are
//! refused, and some are dropped as too late.

use super::{filled, none, stations, PLACES, STATIONS};
use compare::records::{Arrival, Scenario, SetUp, RTDG};

/// The slots from one arrival to the next.
const APART: u32 = 23;

/// How long a packet may wait: hardly as long as a full queue takes.
const PATIENCE: u32 = 26_000;

/// Of the packets that arrive at once: the first latest start, and the slots from one to the next.
const FIRST: u32 = 2_000;
const STAGGER: u32 = 24;

const LENGTH: u16 = 2;

pub fn scenario() -> Scenario {
    let set_up = SetUp {
        discipline: RTDG,
        parameters: 4_096,
        addresses: 65_536,
        laxity_step: 10,
        stations: STATIONS as u8,
    };
    let arrivals = (0..PLACES).map(at_once).chain((0..).map(later));
    filled(set_up, stations(STATIONS, address, none), arrivals)
}

/// Stations are neighbours by twos.
fn address(place: u32) -> u16 {
    (place / 2 * 2_042 + place % 2) as u16
}

/// The packets that fill the queues at slot 0.
fn at_once(number: u32) -> Arrival {
    arrival(number, 0, FIRST + STAGGER * pair(number))
}

fn later(number: u32) -> Arrival {
    arrival(number, APART * (number + 1), APART * (pair(number) + 1) + PATIENCE)
}

/// Two packets in turn have one latest start.
fn pair(number: u32) -> u32 {
    number - number % 2
}

fn arrival(number: u32, time: u32, latest: u32) -> Arrival {
    Arrival {
        time,
        address: address(number % STATIONS),
        value: latest,
        length: LENGTH,
    }
}

#[cfg(test)]
mod tests {
    use super::*;
    use crate::shown::shown;

    #[test]
    fn the_queues_stay_full() {
        let shown = shown(&scenario());
        assert_eq!(shown.contentions[0].waiting, 1_024);
        assert!(shown.contentions.iter().all(|contention| contention.waiting >= 960));
        assert!(shown.end.waiting >= 1_000);
    }

    #[test]
    fn some_are_refused_and_some_are_late() {
        let shown = shown(&scenario());
        assert!(shown.refused >= 100);
        assert!(shown.end.lost >= 100);
        assert!(shown.end.sent >= 2_000);
    }

    #[test]
    fn each_contention_has_collisions_and_many_tie() {
        let shown = shown(&scenario());
        assert!(shown.contentions.iter().all(|contention| contention.collisions > 0));
        let ties = shown.count(|contention| contention.tie_probes > 0);
        assert!(3 * ties > shown.contentions.len());
        assert!(3 * ties < 2 * shown.contentions.len());
    }
}
