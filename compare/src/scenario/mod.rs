//! Scenarios: the tables of what one can have wrong, and the seeded ones.

mod drawn;
mod faults;
mod fields;

use crate::case::{Case, Shows};
use crate::records::{Arrival, Scenario, SetUp, Station, RTDG, RTVC};

pub use drawn::{bus, damaged, drawn, undamaged, value, LARGE, LAXITY_STEPS, SMALL};
pub use faults::{alone, cuts, far_stations, pairs, sizes};
pub use fields::{falling_times, fields};

/// The slot in which the second arrival of the plain scenario is admitted, whatever the discipline.
const SLOT: u32 = 3;

/// The scenario that the tables change: D 5 and A 300 are no powers of two, addresses 7 and 263 have one low byte.
pub fn plain(discipline: u8) -> Scenario {
    let capabilities = if discipline == RTVC { [4, 0, 2] } else { [0; 3] };
    let value = [4, 40, 0][usize::from(discipline)];
    let arrival = |time, address, length| Arrival { time, address, value, length };
    Scenario {
        set_up: SetUp {
            discipline,
            parameters: 5,
            addresses: 300,
            laxity_step: if discipline == RTDG { 10 } else { 1 },
            stations: 3,
        },
        stations: [7, 263, 299]
            .into_iter()
            .zip(capabilities)
            .map(|(address, capability)| Station { address, capability })
            .collect(),
        arrivals: vec![arrival(0, 263, 2), arrival(SLOT, 7, 1), arrival(SLOT, 299, 4)],
        steps: 40,
    }
}

/// A scenario that is refused as a whole.
fn refused(name: impl Into<String>, input: Vec<u8>, number: u8, offset: usize) -> Case {
    Case::new(name, input, vec![Shows::Whole(format!("REFUSED {number} {offset}\n"))])
}
