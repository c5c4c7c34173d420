//! Scenarios with one fault or two, so that the order of the checks shows; cut at every byte; as long as may be, and longer.

use super::{plain, refused};
use crate::case::{Case, Shows};
use crate::edges::alone_and_with;
use crate::records::{offset, run, Arrival, Scenario, SetUp, Station, LONGEST, PRI, RTDG, RTVC};

/// A fault of the plain RTVC scenario: the refusal, the record at whose offset it is told, its name and its change.
struct Fault(u8, usize, &'static str, fn(&mut Vec<Vec<u8>>));

/// The faults in the order in which they are tried. Records 1 to 3 are the stations, 4 to 6 the arrivals, 7 the run.
const FAULTS: &[Fault] = &[
    Fault(22, 0, "too long", |r| r.push(vec![0; LONGEST])),
    Fault(18, 0, "set-up's header cut", |r| cut(r, 0, 3)),
    Fault(19, 0, "set-up of no kind", |r| r[0][2] = 9),
    Fault(18, 0, "set-up's body cut", |r| cut(r, 0, 5)),
    Fault(20, 0, "run for the set-up", |r| r[0] = run(3)),
    Fault(2, 0, "discipline 3", |r| r[0][4] = 3),
    Fault(3, 0, "D 1", |r| r[0][5] = 1),
    Fault(4, 0, "A 0", |r| r[0][9..11].fill(0)),
    Fault(5, 0, "q 2", |r| r[0][13] = 2),
    Fault(6, 0, "N 65", |r| r[0][15] = 65),
    Fault(18, 1, "no station", |r| cut(r, 1, 0)),
    Fault(20, 1, "set-up for a station", |r| r[1] = plain_record(0)),
    Fault(18, 2, "station's header cut", |r| cut(r, 2, 3)),
    Fault(19, 2, "station of another length", |r| r[2][0] = 7),
    Fault(18, 2, "station's body cut", |r| cut(r, 2, 5)),
    Fault(20, 2, "arrival for a station", |r| r[2] = plain_record(5)),
    Fault(18, 3, "last station cut", |r| cut(r, 3, 5)),
    Fault(20, 3, "run for the last station", |r| r[3] = run(3)),
    Fault(7, 1, "first address at A", |r| r[1][4..6].copy_from_slice(&300_u16.to_le_bytes())),
    Fault(9, 1, "first capability at D", |r| r[1][6] = 5),
    Fault(7, 2, "middle address at A", |r| r[2][4..6].copy_from_slice(&300_u16.to_le_bytes())),
    Fault(8, 2, "middle address of the first", |r| r[2][5] = 0),
    Fault(9, 2, "middle capability at D", |r| r[2][6] = 5),
    Fault(10, 2, "middle capability of the first", |r| r[2][6] = 4),
    Fault(7, 3, "last address at A", |r| r[3][4..6].copy_from_slice(&300_u16.to_le_bytes())),
    Fault(8, 3, "last address of the middle one", |r| r[3][4..6].copy_from_slice(&263_u16.to_le_bytes())),
    Fault(9, 3, "last capability in the upper byte", |r| r[3][7] = 1),
    Fault(10, 3, "last capability of the middle one", |r| r[3][6] = 0),
    Fault(18, 4, "no arrival, no run", |r| cut(r, 4, 0)),
    Fault(20, 4, "station too many", |r| r[4] = plain_record(3)),
    Fault(18, 5, "arrival's header cut", |r| cut(r, 5, 2)),
    Fault(19, 5, "arrival of no kind", |r| r[5][3] = 1),
    Fault(19, 5, "header of no kind and no more", |r| (r.truncate(5), r.push(vec![14, 0, 5, 0])).0),
    Fault(18, 5, "arrival's body cut", |r| cut(r, 5, 5)),
    Fault(20, 5, "set-up for an arrival", |r| r[5] = plain_record(0)),
    Fault(18, 6, "last arrival's body cut", |r| cut(r, 6, 10)),
    Fault(21, 6, "time falls", |r| r[6][4] = 2),
    Fault(18, 7, "no run", |r| cut(r, 7, 0)),
    Fault(19, 7, "run of another length", |r| r[7][0] = 5),
    Fault(18, 7, "run cut", |r| cut(r, 7, 5)),
    Fault(20, 7, "station for the run", |r| r[7] = plain_record(3)),
    Fault(20, 8, "byte after the run", |r| r.push(vec![0])),
    Fault(20, 8, "arrival after the run", |r| r.push(plain_record(6))),
    Fault(20, 8, "cut arrival after the run", |r| r.push(vec![14, 0, 3, 0, 1])),
    Fault(20, 8, "record of no kind after the run", |r| r.push(vec![2, 0, 9, 0])),
];

fn plain_record(place: usize) -> Vec<u8> {
    plain(RTVC).records().swap_remove(place)
}

/// Keeps so many bytes of the record at a place, and none after it.
fn cut(records: &mut Vec<Vec<u8>>, place: usize, kept: usize) {
    records.truncate(place + 1);
    records[place].truncate(kept);
}

/// Each fault alone and each two of them. The later one is made first: a cut leaves nothing behind it to change.
pub fn pairs() -> Vec<Case> {
    alone_and_with(FAULTS).into_iter().map(|(fault, later)| fault.case(later)).collect()
}

/// Each fault alone.
pub fn alone() -> Vec<Case> {
    FAULTS.iter().map(|fault| fault.case(None)).collect()
}

impl Fault {
    fn case(&self, later: Option<&Fault>) -> Case {
        let mut records = plain(RTVC).records();
        if let Some(later) = later {
            (later.3)(&mut records);
        }
        (self.3)(&mut records);
        let name = [Some(self), later].into_iter().flatten().map(|fault| fault.2).collect::<Vec<_>>().join(" and ");
        refused(name, records.concat(), self.0, offset(&records, self.1))
    }
}

/// The plain scenario cut at every byte.
pub fn cuts() -> Vec<Case> {
    let records = plain(RTDG).records();
    let starts = (0..records.len()).map(|place| (offset(&records, place), records[place].len()));
    let cut = |(start, at): (usize, usize)| {
        refused(format!("cut after {at} bytes"), records.concat()[..at].to_vec(), 18, start)
    };
    starts.flat_map(|(start, length)| (start..start + length).map(move |at| (start, at))).map(cut).collect()
}

/// Scenarios about as long as they may be, and runs of few steps, of many, and with many packets.
pub fn sizes() -> Vec<Case> {
    let long = |stations, length: usize| {
        let mut bytes = filled(stations, length).bytes();
        bytes.resize(length, 0);
        bytes
    };
    let run = |steps, arrivals: usize| {
        Scenario { arrivals: plain(PRI).arrivals[..arrivals].to_vec(), steps, ..plain(PRI) }.bytes()
    };
    let line = |name: &str, input, line: &str| Case::new(name, input, vec![Shows::Line(line.to_string())]);
    vec![
        line("65,534 bytes, 4,077 packets turned away", filled(3, LONGEST).bytes(), "END 56 16 16 0 0 4077"),
        refused("65,536 bytes, two after the run", long(3, LONGEST), 20, LONGEST - 2),
        refused("65,536 bytes, no run", long(2, LONGEST + 16)[..LONGEST].to_vec(), 18, LONGEST),
        refused("65,536 bytes, a cut arrival", long(3, LONGEST + 16)[..LONGEST].to_vec(), 18, LONGEST - 8),
        refused("65,537 bytes", long(3, LONGEST + 1), 22, 0),
        refused("300,000 bytes", long(2, 300_000), 22, 0),
        line("no step", run(0, 0), "END 0 0 0 0 0 0"),
        line("one step", run(1, 0), "END 1 0 0 0 0 0"),
        line("arrivals due at the end", run(2, 3), "END 3 1 1 0 0 0"),
        line("300 packets", each_slot(300, 300).bytes(), "299 P 0 8 S 263 300 1 0"),
        line("a packet that waits past slot 65,536", long_wait(), "65552 P 0 8 S 299 17 1 65552"),
        line("a packet admitted after its time", after_its_time(), "4096 P 0 8 S 263 2 1 0"),
        refused("time falls at the 100th", each_slot(100, 50).bytes(), 21, offset(&each_slot(100, 50).records(), 103)),
        line("a refused arrival at slot 65,536", late_arrival(), "R 65536 263 12"),
        line("65,535 steps", run(u16::MAX, 0), "END 65535 0 0 0 0 0"),
    ]
}

/// A packet of one slot in each of so many slots, but that the last comes at another time.
fn each_slot(slots: u16, last: u32) -> Scenario {
    let time = |at: u16| if at + 1 == slots && last < slots.into() { last } else { at.into() };
    let arrivals = (0..slots).map(|at| Arrival { time: time(at), length: 1, ..plain(PRI).arrivals[0] }).collect();
    Scenario { arrivals, steps: slots, ..plain(PRI) }
}

/// Sixteen packets of 4,096 slots each, and behind them an arrival whose value is D.
fn late_arrival() -> Vec<u8> {
    let long = Arrival { length: 4_096, ..plain(PRI).arrivals[0] };
    let arrivals = [vec![long; 16], vec![Arrival { time: 65_536, value: 5, ..long }]].concat();
    Scenario { arrivals, ..plain(PRI) }.bytes()
}

/// Sixteen packets of 4,096 slots each, and one that is less urgent, all at once; each of the sixteen takes a collision more.
fn long_wait() -> Vec<u8> {
    let long = Arrival { value: 3, length: 4_096, ..plain(PRI).arrivals[0] };
    let waits = Arrival { time: 0, address: 299, value: 4, length: 1 };
    Scenario { arrivals: [vec![long; 16], vec![waits]].concat(), ..plain(PRI) }.bytes()
}

/// A packet of 4,096 slots, and one whose time comes while it is sent.
fn after_its_time() -> Vec<u8> {
    let long = Arrival { length: 4_096, ..plain(PRI).arrivals[0] };
    Scenario { arrivals: vec![long, Arrival { time: 1, length: 1, ..long }], ..plain(PRI) }.bytes()
}

/// 64 circuits of which one is at fault: its address or capability is past its space, or that of an earlier one.
pub fn far_stations() -> Vec<Case> {
    let past = [31, 63].into_iter().flat_map(|place| [(7, place, 300), (9, place, 64)]);
    let taken = [(31, 0), (63, 0), (63, 32), (63, 62)].into_iter().flat_map(|(at, by)| [(8, at, by), (10, at, by)]);
    let case = |(number, place, other): (u8, usize, u16)| {
        let mut stations: Vec<Station> = (0..64).map(|at| Station { address: at, capability: at }).collect();
        let Station { address, capability } = &mut stations[place];
        *(if number < 9 { address } else { capability }) = other;
        let set_up = SetUp { parameters: 64, stations: 64, ..plain(RTVC).set_up };
        let scenario = Scenario { set_up, stations, ..plain(RTVC) };
        refused(format!("{number} at {place} by {other}"), scenario.bytes(), number, 16 + 8 * place)
    };
    past.chain(taken).map(case).collect()
}

/// So many stations, and as many arrivals as fit below a length.
fn filled(stations: usize, length: usize) -> Scenario {
    let mut scenario = plain(PRI);
    scenario.set_up.stations = stations as u8;
    scenario.stations.truncate(stations);
    scenario.arrivals.truncate(1);
    let more = (length - scenario.bytes().len()) / 16;
    scenario.arrivals.extend(vec![scenario.arrivals[0]; more]);
    scenario
}
