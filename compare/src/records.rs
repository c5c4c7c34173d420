//! The records of a scenario, and their bytes: a length, a kind, a body, little-endian.

/// The disciplines' numbers.
pub const PRI: u8 = 0;
pub const RTDG: u8 = 1;
pub const RTVC: u8 = 2;

/// The longest scenario, in bytes.
pub const LONGEST: usize = 65_536;
/// The last slot of the clock, which is the highest latest start too.
pub const LAST_SLOT: u32 = 1_073_741_824;
/// The last slot in which a step is taken.
pub const LAST_STEP: u32 = 1_073_737_728;
/// The most packets that are admitted, which is the highest number of one.
pub const LAST_NUMBER: u64 = 4_294_967_295;
/// The most packets that are counted as turned away: there the count stops.
pub const MOST_TURNED_AWAY: u64 = 4_294_967_295;
/// The longest packet.
pub const LONGEST_PACKET: u16 = 4_096;
/// The places of a station's queue, and the stations of a full segment.
pub const QUEUE_PLACES: usize = 16;
pub const STATIONS: usize = 64;

/// The body of a set-up record: the parameter space is D, the address space A, the laxity step q.
#[derive(Clone, Debug)]
pub struct SetUp {
    pub discipline: u8,
    pub parameters: u32,
    pub addresses: u32,
    pub laxity_step: u16,
    pub stations: u8,
}

/// The body of a station record.
#[derive(Clone, Copy, Debug)]
pub struct Station {
    pub address: u16,
    pub capability: u16,
}

/// The body of an arrival record.
#[derive(Clone, Copy, Debug)]
pub struct Arrival {
    pub time: u32,
    pub address: u16,
    pub value: u32,
    pub length: u16,
}

/// What a scenario says; the set-up's count of stations is its own, so that it can be wrong.
#[derive(Clone, Debug)]
pub struct Scenario {
    pub set_up: SetUp,
    pub stations: Vec<Station>,
    pub arrivals: Vec<Arrival>,
    pub steps: u16,
}

/// A record of a kind with a body; the length is that of kind and body.
fn record(kind: u16, body: &[&[u8]]) -> Vec<u8> {
    let body = body.concat();
    let length = (2 + body.len()) as u16;
    [&length.to_le_bytes(), &kind.to_le_bytes(), body.as_slice()].concat()
}

impl SetUp {
    pub fn record(&self) -> Vec<u8> {
        let (parameters, addresses) = (self.parameters.to_le_bytes(), self.addresses.to_le_bytes());
        record(1, &[&[self.discipline], &parameters, &addresses, &self.laxity_step.to_le_bytes(), &[self.stations]])
    }
}

impl Station {
    pub fn record(&self) -> Vec<u8> {
        record(2, &[&self.address.to_le_bytes(), &self.capability.to_le_bytes()])
    }
}

impl Arrival {
    pub fn record(&self) -> Vec<u8> {
        let (time, value) = (self.time.to_le_bytes(), self.value.to_le_bytes());
        record(3, &[&time, &self.address.to_le_bytes(), &value, &self.length.to_le_bytes()])
    }
}

/// The run record.
pub fn run(steps: u16) -> Vec<u8> {
    record(4, &[&steps.to_le_bytes()])
}

impl Scenario {
    /// The records in their order.
    pub fn records(&self) -> Vec<Vec<u8>> {
        let mut records = vec![self.set_up.record()];
        records.extend(self.stations.iter().map(Station::record));
        records.extend(self.arrivals.iter().map(Arrival::record));
        records.push(run(self.steps));
        records
    }

    /// The whole scenario.
    pub fn bytes(&self) -> Vec<u8> {
        self.records().concat()
    }
}

/// The offset of the record at a place.
pub fn offset(records: &[Vec<u8>], place: usize) -> usize {
    records[..place].iter().map(Vec::len).sum()
}

#[cfg(test)]
mod tests {
    use super::*;

    /// The worked example of the rules.
    const WORKED: &[u8] = include_bytes!("../../examples/worked.scenario");

    #[test]
    fn worked_example() {
        let arrival = |address, value, length| Arrival { time: 0, address, value, length };
        let scenario = Scenario {
            set_up: SetUp { discipline: PRI, parameters: 4, addresses: 8, laxity_step: 1, stations: 3 },
            stations: [1, 5, 6].map(|address| Station { address, capability: 0 }).to_vec(),
            arrivals: vec![arrival(5, 2, 3), arrival(6, 2, 1), arrival(1, 3, 2)],
            steps: 14,
        };
        assert_eq!(scenario.bytes(), WORKED);
        assert_eq!([0, 1, 4, 8].map(|place| offset(&scenario.records(), place)), [0, 16, 40, WORKED.len()]);
    }
}
