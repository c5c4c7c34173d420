//! Seeded scenarios, for what no table foresees. A class is a line; the classes go in rotation.

use crate::case::{Case, Shows};
use crate::records::{Arrival, Scenario, SetUp, Station, LAST_SLOT, LONGEST_PACKET, PRI, RTDG, RTVC};
use crate::seeded::Numbers;
use Shows::{Drop, End, Refuses, Tie};
use Sort::{Any, Damaged, Far, Near, Same, Steps, Upper};

/// Spaces that are small, around one byte and around two, both, and those with room for 64 stations.
pub const SMALL: &[u32] = &[2, 3, 4, 5, 7, 8];
pub const LARGE: &[u32] = &[255, 256, 257, 65_535, 65_536];
const BOTH: &[u32] = &[2, 3, 5, 8, 256, 257, 65_535, 65_536];
const WIDE: &[u32] = &[64, 65, 128, 256, 65_536];

/// Lengths of packets.
const SHORT: &[u16] = &[1, 1, 1, 2, 3, 5, 20];
const LONG: &[u16] = &[1, LONGEST_PACKET - 1, LONGEST_PACKET];

/// What is particular about the packets of a class.
#[derive(Clone, Copy, PartialEq)]
enum Sort {
    Any,
    /// All have one parameter.
    Same,
    /// Parameters and addresses differ in nothing but the upper byte.
    Upper,
    /// Latest starts less than so many slots off.
    Near(u64),
    /// Latest starts up to the last slot.
    Far,
    /// Latest starts around a whole number of laxity steps off.
    Steps,
    /// Any, and the scenario is damaged.
    Damaged,
}

/// A class: its disciplines, spaces, how many stations and packets, up to which slot they arrive, their sort and lengths, the
/// steps, and what the listing shows. Packets that arrive at slot 0 go to the stations in turn.
#[rustfmt::skip]
struct Class(
    &'static str, &'static [u8], &'static [u32], (u64, u64), (u64, u64), u64, Sort, &'static [u16], u16, &'static [Shows]
);

const ALL: &[u8] = &[PRI, RTDG, RTVC];

#[rustfmt::skip]
const CLASSES: &[Class] = &[
    Class("small spaces",          ALL,          SMALL, (1, 8),   (3, 20),        40,    Any,      SHORT,   60,    &[End]),
    Class("large spaces",          ALL,          LARGE, (1, 8),   (3, 20),        40,    Any,      SHORT,   60,    &[End]),
    Class("many stations",         ALL,          WIDE,  (16, 64), (30, 90),       30,    Any,      SHORT,   60,    &[End]),
    Class("all queues full",       ALL,          WIDE,  (64, 64), (1_025, 1_090), 0,     Any,      &[1],    30,    &[End, Refuses(15)]),
    Class("equal parameters",      &[PRI, RTDG], BOTH,  (2, 10),  (10, 24),       0,     Same,     SHORT,   70,    &[End, Tie]),
    Class("upper bytes",           ALL,          LARGE, (2, 6),   (4, 16),        20,    Upper,    SHORT,   90,    &[End]),
    Class("late packets",          &[RTDG],      BOTH,  (2, 8),   (12, 30),       0,     Near(4),  SHORT,   80,    &[End, Drop]),
    Class("late in a tie",         &[RTDG],      BOTH,  (2, 8),   (20, 40),       0,     Near(12), SHORT,   80,    &[End, Drop]),
    Class("long packets",          ALL,          SMALL, (1, 6),   (6, 20),        50,    Near(90), &[100],  40,    &[End]),
    Class("latest starts far off", &[RTDG],      BOTH,  (2, 6),   (4, 12),        5,     Far,      SHORT,   70,    &[End]),
    Class("whole laxity steps",    &[RTDG],      BOTH,  (2, 6),   (6, 20),        10,    Steps,    &[1],    60,    &[End]),
    Class("queues filled again",   ALL,          SMALL, (1, 3),   (50, 70),       25,    Any,      &[1],    60,    &[End]),
    Class("crowded stations",      ALL,          SMALL, (1, 2),   (60, 90),       20,    Far,      &[1, 2], 50,    &[End, Refuses(15)]),
    Class("late arrivals",         &[RTDG],      BOTH,  (1, 4),   (20, 50),       200,   Near(20), &[100],  60,    &[End, Refuses(14)]),
    Class("a packet a slot",       ALL,          BOTH,  (2, 8),   (40, 60),       40,    Any,      &[1, 2], 100,   &[End]),
    Class("busy circuits",         &[RTVC],      BOTH,  (2, 8),   (8, 40),        10,    Any,      &[1],    120,   &[End]),
    Class("longest packets",       ALL,          SMALL, (1, 4),   (6, 14),        5_000, Any,      LONG,    60,    &[End]),
    Class("long runs",             ALL,          BOTH,  (4, 12),  (60, 300),      2_000, Any,      SHORT,   1_000, &[End]),
    Class("damaged",               ALL,          BOTH,  (2, 6),   (3, 8),         20,    Damaged,  SHORT,   40,    &[]),
];

/// The seeded scenario of a number.
pub fn drawn(seed: u64, number: usize) -> Case {
    let class = &CLASSES[number % CLASSES.len()];
    let mut numbers = Numbers::of(seed, number as u64);
    let scenario = class.scenario(&mut numbers);
    let input = if class.6 == Damaged { damaged(&mut numbers, &scenario) } else { scenario.bytes() };
    Case::new(class.0, input, class.9.to_vec())
}

/// The scenario of a number before it is damaged, of whatever class it is.
pub fn undamaged(seed: u64, number: usize) -> Scenario {
    CLASSES[number % CLASSES.len()].scenario(&mut Numbers::of(seed, number as u64))
}

/// Laxity steps for any packets.
pub const LAXITY_STEPS: &[u16] = &[1, 1, 2, 3, 10, 1_000, 65_535];

/// A bus with so many stations, or as many as there is room for; spaces, laxity step, addresses and capabilities are drawn.
pub fn bus(numbers: &mut Numbers, discipline: u8, spaces: &[u32], laxity_steps: &[u16], wanted: u64) -> Scenario {
    listed(numbers, discipline, spaces, laxity_steps, wanted, Numbers::distinct)
}

/// The same by a way to draw distinct numbers.
fn listed(numbers: &mut Numbers, discipline: u8, row: &[u32], steps: &[u16], many: u64, by: Distinct) -> Scenario {
    let (parameters, addresses) = (numbers.pick(row), numbers.pick(row));
    let laxity_step = if discipline == RTDG { numbers.pick(steps) } else { 1 };
    let many = many as usize;
    let drawn = by(numbers, many, addresses.into());
    let capabilities = if discipline == RTVC { by(numbers, many, parameters.into()) } else { vec![0; many] };
    let station = |(address, capability)| Station { address: address as u16, capability: capability as u16 };
    let stations: Vec<Station> = drawn.into_iter().zip(capabilities).map(station).collect();
    let set_up = SetUp { discipline, parameters, addresses, laxity_step, stations: stations.len() as u8 };
    Scenario { set_up, stations, arrivals: Vec::new(), steps: 0 }
}

/// So many distinct numbers below a bound, or as many as there are.
type Distinct = fn(&mut Numbers, usize, u64) -> Vec<u64>;

/// Those that are equal in their lower byte.
fn upper(numbers: &mut Numbers, many: usize, bound: u64) -> Vec<u64> {
    let low = numbers.below(bound.min(256));
    let drawn = numbers.distinct(many, bound.div_ceil(256)).into_iter().map(|high| 256 * high + low);
    drawn.filter(|number| *number < bound).collect()
}

/// A value that an arrival at this time may have; in RTDG up to a drawn number of slots off.
pub fn value(numbers: &mut Numbers, scenario: &Scenario, time: u32) -> u32 {
    let reach = numbers.pick(&[1, 4, 16, 64, 64, 1_000, 500_000_000]);
    match scenario.set_up.discipline {
        PRI => numbers.below(scenario.set_up.parameters.into()) as u32,
        RTDG => (u64::from(time) + numbers.below(reach)).min(LAST_SLOT.into()) as u32,
        _ => 0,
    }
}

impl Class {
    fn scenario(&self, numbers: &mut Numbers) -> Scenario {
        let Class(_, disciplines, spaces, stations, packets, span, sort, lengths, steps, _) = *self;
        let laxity_steps: &[u16] = match sort {
            Same => &[500, 1_000, 65_535],
            Near(_) => &[1, 1, 2, 100],
            Steps => &[10, 100, 4_096],
            _ => LAXITY_STEPS,
        };
        let (discipline, wanted) = (numbers.pick(disciplines), numbers.between(stations));
        let distinct = if sort == Upper { upper } else { Numbers::distinct };
        let mut scenario = listed(numbers, discipline, spaces, laxity_steps, wanted, distinct);
        let (many, common) = (scenario.stations.len(), numbers.number());
        let mut times: Vec<u32> = (0..numbers.between(packets)).map(|_| numbers.below(span + 1) as u32).collect();
        times.sort_unstable();
        for (at, time) in times.into_iter().enumerate() {
            let place = if span == 0 { at % many } else { numbers.place(many) };
            let value = sort.value(numbers, &scenario, time, common);
            let (address, length) = (scenario.stations[place].address, numbers.pick(lengths));
            scenario.arrivals.push(Arrival { time, address, value, length });
        }
        Scenario { steps, ..scenario }
    }
}

impl Sort {
    /// The value of a packet of this sort; the common number is the same for the whole scenario.
    fn value(self, numbers: &mut Numbers, scenario: &Scenario, time: u32, common: u64) -> u32 {
        let SetUp { discipline, parameters, laxity_step, .. } = scenario.set_up;
        let (parameters, laxity_step) = (u64::from(parameters), u64::from(laxity_step));
        let after = |slots: u64| (u64::from(time) + slots).min(LAST_SLOT.into()) as u32;
        match (self, discipline) {
            (Same, PRI) => (common % parameters) as u32,
            (Same, RTDG) => after(common % 2 * laxity_step + numbers.between((200, 499))),
            (Upper, PRI) => (256 * numbers.below(parameters.div_ceil(256)) + common % 256).min(parameters - 1) as u32,
            (Near(slots), RTDG) => after(numbers.below(slots)),
            (Far, RTDG) => LAST_SLOT - numbers.pick(&[0, 0, 1, 65_536, 1_000_000]),
            (Steps, RTDG) => after(numbers.between((1, (parameters + 1).min(20))) * laxity_step + numbers.below(3) - 1),
            _ => value(numbers, scenario, time),
        }
    }
}

/// Bytes changed, left out, put in or cut off; records exchanged, doubled, left out. The count of steps stays as it is.
pub fn damaged(numbers: &mut Numbers, scenario: &Scenario) -> Vec<u8> {
    let mut records = scenario.records();
    let (one, other) = (numbers.place(records.len()), numbers.place(records.len()));
    match numbers.below(8) {
        0 => records.swap(one, other),
        1 => records.insert(one, records[other].clone()),
        2 => drop(records.remove(one)),
        _ => {}
    }
    let mut input = records.concat();
    for _ in 0..numbers.pick(&[0, 1, 1, 3]) {
        let at = numbers.place(input.len().saturating_sub(2).max(1));
        match numbers.below(5) {
            0 => input[at] = numbers.number() as u8,
            1 => input[at] ^= 1 << numbers.below(8),
            2 => drop(input.remove(at)),
            3 => input.insert(at, numbers.pick(&[0, 1, 4, 255])),
            _ => input[at] = numbers.pick(&[0, 1, 2, 3, 5, 64, 65, 255]),
        }
    }
    if numbers.once_in(8) {
        input.truncate(numbers.place(input.len() + 1));
    }
    input
}
