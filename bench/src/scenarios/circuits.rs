//! Scenario c: 64 stations, RTVC, all circuits busy. Each round takes one packet of every circuit.

use super::{filled, stations, PLACES, STATIONS};
use compare::records::{Arrival, Scenario, SetUp, RTVC};

/// The slots from one arrival to the next: somewhat more than a packet takes, so that arrivals last to the end.
const APART: u32 = 22;

const LENGTH: u16 = 2;

pub fn scenario() -> Scenario {
    let set_up = SetUp {
        discipline: RTVC,
        parameters: 65_536,
        addresses: 65_536,
        laxity_step: 1,
        stations: STATIONS as u8,
    };
    filled(set_up, stations(STATIONS, address, capability), (0..).map(arrival))
}

fn address(place: u32) -> u16 {
    1_021 * place as u16
}

/// The lowest 64, not in the order of the stations.
fn capability(place: u32) -> u16 {
    (37 * place % STATIONS) as u16
}

/// The first arrivals fill the queues at slot 0; those that follow go to the stations in turn.
fn arrival(number: u32) -> Arrival {
    Arrival {
        time: APART * number.saturating_sub(PLACES),
        address: address(number % STATIONS),
        value: 0,
        length: LENGTH,
    }
}

#[cfg(test)]
mod tests {
    use super::*;
    use crate::shown::shown;

    #[test]
    fn every_circuit_is_busy_to_the_end() {
        let shown = shown(&scenario());
        assert!(shown.contentions.iter().all(|contention| contention.busy == 64));
        assert!(shown.end.waiting > 64);
    }

    /// The run ends within its last contention.
    #[test]
    fn a_round_sends_a_packet_of_each_circuit_and_ends_idle() {
        let contentions = shown(&scenario()).contentions;
        let (_, whole) = contentions.split_last().unwrap();
        for (place, contention) in whole.iter().enumerate() {
            assert_eq!(contention.sent, place % 65 < 64, "contention {place}");
        }
    }

    #[test]
    fn a_contention_takes_some_sixteen_probes() {
        let shown = shown(&scenario());
        let contentions = shown.contentions.len();
        assert!((16 * contentions..19 * contentions).contains(&shown.slots()));
        assert!(shown.end.sent >= 3_600);
    }
}
