//! The scenario reader: bytes to a scenario, or a refusal and the offset of the faulty record.

use crate::refusal::Refusal;
use crate::set_up::{check_settings, set_up};
use crate::state::{Settings, State, Station};

/// "scenario above 65,536 bytes" is refused.
pub const LONGEST_SCENARIO: usize = 65_536;

#[derive(Clone, Copy, Debug, PartialEq, Eq)]
pub struct Arrival {
    pub time: u32,
    pub address: u32,
    pub value: u32,
    pub length: u32,
}

/// A scenario that was read to its end: the state as set up, the arrivals in file order, the steps.
#[derive(Clone, Debug, PartialEq, Eq)]
pub struct Scenario {
    pub state: State,
    pub arrivals: Vec<Arrival>,
    pub steps: u16,
}

#[derive(Clone, Copy, Debug, PartialEq, Eq)]
pub struct Refused {
    pub refusal: Refusal,
    pub offset: usize,
}

/// One record of the scenario.
enum Record {
    SetUp(Settings),
    Station(Station),
    Arrival(Arrival),
    Run(u16),
}

/// Reads a scenario: "one set-up, N stations, any arrivals, one run".
pub fn read(input: &[u8]) -> Result<Scenario, Refused> {
    if input.len() > LONGEST_SCENARIO {
        return refuse(Refusal::ScenarioTooLong, 0);
    }
    let mut records = Records { input, offset: 0 };
    let settings = read_set_up(&mut records)?;
    let state = read_stations(&mut records, settings)?;
    let (arrivals, steps) = read_arrivals_and_run(&mut records)?;
    if records.offset < input.len() {
        return refuse(Refusal::OutOfPlace, records.offset);
    }
    Ok(Scenario {
        state,
        arrivals,
        steps,
    })
}

fn refuse<T>(refusal: Refusal, offset: usize) -> Result<T, Refused> {
    Err(Refused { refusal, offset })
}

/// "Refusals 2 to 6 come as the set-up is read".
fn read_set_up(records: &mut Records) -> Result<Settings, Refused> {
    let (offset, record) = records.next()?;
    let Record::SetUp(settings) = record else {
        return refuse(Refusal::OutOfPlace, offset);
    };
    check_settings(&settings).or_else(|refusal| refuse(refusal, offset))?;
    Ok(settings)
}

/// "7 to 10 once the last station is read", at "the faulty station's" offset.
fn read_stations(records: &mut Records, settings: Settings) -> Result<State, Refused> {
    let mut row = Vec::new();
    let mut offsets = Vec::new();
    for _ in 0..settings.n {
        let (offset, record) = records.next()?;
        let Record::Station(station) = record else {
            return refuse(Refusal::OutOfPlace, offset);
        };
        row.push(station);
        offsets.push(offset);
    }
    let (passed, state) = set_up(settings, &row);
    match passed {
        Ok(()) => Ok(state),
        Err(refused) => refuse(refused.refusal, offsets[refused.station]),
    }
}

/// The arrivals, none "below the previous arrival's" time, and the run record's steps.
fn read_arrivals_and_run(records: &mut Records) -> Result<(Vec<Arrival>, u16), Refused> {
    let mut arrivals: Vec<Arrival> = Vec::new();
    loop {
        let (offset, record) = records.next()?;
        match record {
            Record::Arrival(arrival) => {
                if arrivals.last().is_some_and(|p| arrival.time < p.time) {
                    return refuse(Refusal::ArrivalTime, offset);
                }
                arrivals.push(arrival);
            }
            Record::Run(steps) => return Ok((arrivals, steps)),
            _ => return refuse(Refusal::OutOfPlace, offset),
        }
    }
}

/// The records of an input, taken one after the other.
struct Records<'a> {
    input: &'a [u8],
    offset: usize,
}

impl Records<'_> {
    /// The next record and its offset; "Each record is taken from the rest of the lent input."
    fn next(&mut self) -> Result<(usize, Record), Refused> {
        let offset = self.offset;
        match take_record(&self.input[offset..]) {
            Ok((record, taken)) => {
                self.offset += taken;
                Ok((offset, record))
            }
            Err(refusal) => refuse(refusal, offset),
        }
    }
}

/// "18 if under four bytes remain, 19, 18 for a short body"; hands back the bytes taken too.
fn take_record(rest: &[u8]) -> Result<(Record, usize), Refusal> {
    let &[l0, l1, k0, k1, ..] = rest else {
        return Err(Refusal::ScenarioEnds);
    };
    let length = usize::from(u16::from_le_bytes([l0, l1]));
    let kind = u16::from_le_bytes([k0, k1]);
    if length_of_kind(kind) != Some(length) {
        return Err(Refusal::UnknownRecord);
    }
    let taken = 2 + length;
    let Some(body) = rest.get(4..taken) else {
        return Err(Refusal::ScenarioEnds);
    };
    Ok((record_of(kind, body), taken))
}

/// The length of a record of each kind, "of what follows it".
fn length_of_kind(kind: u16) -> Option<usize> {
    match kind {
        1 | 3 => Some(14),
        2 => Some(6),
        4 => Some(4),
        _ => None,
    }
}

/// The record of a kind with a whole body.
fn record_of(kind: u16, body: &[u8]) -> Record {
    match kind {
        1 => Record::SetUp(Settings {
            discipline: little_endian(body, 0, 1),
            d: little_endian(body, 1, 4),
            a: little_endian(body, 5, 4),
            q: little_endian(body, 9, 2),
            n: u64::from(little_endian(body, 11, 1)),
        }),
        2 => Record::Station(Station {
            address: little_endian(body, 0, 2),
            capability: little_endian(body, 2, 2),
        }),
        3 => Record::Arrival(Arrival {
            time: little_endian(body, 0, 4),
            address: little_endian(body, 4, 2),
            value: little_endian(body, 6, 4),
            length: little_endian(body, 10, 2),
        }),
        _ => Record::Run(little_endian(body, 0, 2) as u16),
    }
}

/// The number in a few bytes, "all little-endian"; those past the end are zero.
pub(crate) fn little_endian(body: &[u8], from: usize, bytes: usize) -> u32 {
    body.iter()
        .skip(from)
        .take(bytes)
        .rev()
        .fold(0, |number, &byte| number << 8 | u32::from(byte))
}
