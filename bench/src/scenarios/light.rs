//! Scenario a: 8 stations, PRI, light load. Now and then one, two or three packets arrive together.

use super::{filled, none, stations};
use compare::records::{Arrival, Scenario, SetUp, PRI};

const STATIONS: u32 = 8;
const PRIORITIES: u32 = 8;

/// The slots from one group of arrivals to the next.
const APART: u32 = 30;

/// The sizes of groups, in rotation.
const SIZES: [u32; 4] = [1, 2, 1, 3];

pub fn scenario() -> Scenario {
    let set_up = SetUp {
        discipline: PRI,
        parameters: PRIORITIES,
        addresses: 256,
        laxity_step: 1,
        stations: STATIONS as u8,
    };
    filled(set_up, stations(STATIONS, address, none), (0..).flat_map(group))
}

fn address(place: u32) -> u16 {
    31 * place as u16
}

/// The arrivals of a group: neighbouring stations. In every third group all have one priority.
fn group(number: u32) -> impl Iterator<Item = Arrival> {
    let size = SIZES[number as usize % SIZES.len()];
    (0..size).map(move |place| Arrival {
        time: APART * number,
        address: address((3 * number + place) % STATIONS),
        value: (number / 4 + place * (number % 3)) % PRIORITIES,
        length: 1 + ((number + place) % 4) as u16,
    })
}

#[cfg(test)]
mod tests {
    use super::*;
    use crate::shown::shown;

    #[test]
    fn most_contentions_are_idle() {
        let shown = shown(&scenario());
        let idle = shown.count(|contention| contention.waiting == 0);
        assert!(10 * idle > 9 * shown.contentions.len());
    }

    #[test]
    fn thousands_are_sent_and_few_wait() {
        let shown = shown(&scenario());
        assert!(shown.end.sent >= 4_000);
        assert!(shown.contentions.iter().all(|contention| contention.waiting <= 3));
        assert_eq!(shown.refused, 0);
    }

    #[test]
    fn some_collide_and_some_tie() {
        let shown = shown(&scenario());
        assert!(shown.count(|contention| contention.collisions > 0) > 1_000);
        assert!(shown.count(|contention| contention.tie_probes > 0) > 300);
    }
}
