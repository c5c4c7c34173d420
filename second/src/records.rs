//! The records of a scenario as bytes: "a two-byte length (of what follows it), a two-byte kind, a body,
//! all little-endian".

use crate::scenario::Arrival;
use crate::state::{Settings, Station};

/// "A scenario has 16 bytes for its set-up, 8 for each station, 16 for each arrival and 6 for its run."
pub fn scenario_bytes(stations: usize, arrivals: u64) -> u64 {
    16 + 8 * stations as u64 + 16 * arrivals + 6
}

/// "discipline 1, D 4, A 4, q 2, N 1".
pub fn set_up_record(settings: &Settings) -> Vec<u8> {
    let mut body = little_endian(settings.discipline, 1);
    body.extend(little_endian(settings.d, 4));
    body.extend(little_endian(settings.a, 4));
    body.extend(little_endian(settings.q, 2));
    body.extend(little_endian(settings.n as u32, 1));
    record(1, &body)
}

/// "address 2, capability 2".
pub fn station_record(station: &Station) -> Vec<u8> {
    let mut body = little_endian(station.address, 2);
    body.extend(little_endian(station.capability, 2));
    record(2, &body)
}

/// "time 4, address 2, value 4, packet length 2".
pub fn arrival_record(arrival: &Arrival) -> Vec<u8> {
    let mut body = little_endian(arrival.time, 4);
    body.extend(little_endian(arrival.address, 2));
    body.extend(little_endian(arrival.value, 4));
    body.extend(little_endian(arrival.length, 2));
    record(3, &body)
}

/// "steps 2".
pub fn run_record(steps: u16) -> Vec<u8> {
    record(4, &little_endian(steps.into(), 2))
}

fn record(kind: u32, body: &[u8]) -> Vec<u8> {
    let mut record = little_endian(2 + body.len() as u32, 2);
    record.extend(little_endian(kind, 2));
    record.extend(body);
    record
}

/// The lowest so many bytes of a number.
fn little_endian(number: u32, bytes: usize) -> Vec<u8> {
    number.to_le_bytes()[..bytes].to_vec()
}

#[cfg(test)]
mod tests {
    use super::*;
    use crate::state::RTDG;

    #[test]
    fn a_record_has_its_length_and_kind() {
        let settings = Settings {
            discipline: RTDG,
            d: 65_536,
            a: 0x0001_0203,
            q: 0x0405,
            n: 64,
        };
        let set_up = [14, 0, 1, 0, 1, 0, 0, 1, 0, 3, 2, 1, 0, 5, 4, 64];
        assert_eq!(set_up_record(&settings), set_up);
        let station = Station {
            address: 0x0107,
            capability: 0x0203,
        };
        assert_eq!(station_record(&station), [6, 0, 2, 0, 7, 1, 3, 2]);
        let arrival = Arrival {
            time: 0x0403_0201,
            address: 0x0605,
            value: 0x0A09_0807,
            length: 0x0C0B,
        };
        let bytes = [14, 0, 3, 0, 1, 2, 3, 4, 5, 6, 7, 8, 9, 10, 11, 12];
        assert_eq!(arrival_record(&arrival), bytes);
        assert_eq!(run_record(0x0201), [4, 0, 4, 0, 1, 2]);
    }
}
