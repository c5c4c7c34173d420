//! What the tests share: settings, station rows, states, scenario bytes, listings and scripts.

use second::admission::admit;
use second::drive::drive;
use second::lines::Lines;
use second::listing::list;
use second::set_up::set_up;
use second::state::{Settings, State, Station};
use second::step::{step, Answer, Event};

pub fn settings(discipline: u32, d: u32, a: u32, q: u32, n: u64) -> Settings {
    Settings {
        discipline,
        d,
        a,
        q,
        n,
    }
}

pub fn row(pairs: &[(u32, u32)]) -> Vec<Station> {
    pairs
        .iter()
        .map(|&(address, capability)| Station {
            address,
            capability,
        })
        .collect()
}

/// A state fresh from a set-up that passes.
pub fn fresh(discipline: u32, d: u32, a: u32, q: u32, pairs: &[(u32, u32)]) -> State {
    let (passed, state) = set_up(
        settings(discipline, d, a, q, pairs.len() as u64),
        &row(pairs),
    );
    assert_eq!(passed, Ok(()));
    state
}

pub fn admit_all(state: &mut State, packets: &[(u32, u32, u32)]) {
    for &(address, value, length) in packets {
        assert!(admit(state, address, value, length).is_ok());
    }
}

/// An admission refused with a number: so many packets are turned away then, and the rest of the state
/// is as lent.
pub fn refused_admission(state: &State, packet: (u32, u32, u32), number: u32, turned_away: u64) {
    let mut lent = state.clone();
    let refusal = admit(&mut lent, packet.0, packet.1, packet.2).expect_err("refused");
    assert_eq!((refusal.number(), lent.turned_away), (number, turned_away));
    lent.turned_away = state.turned_away;
    assert!(lent == *state);
}

pub fn stepped(state: &mut State) -> Answer {
    step(state).expect("the step is accepted")
}

/// The answers of one whole contention.
pub fn contention(state: &mut State) -> Vec<Answer> {
    let mut answers = Vec::new();
    loop {
        let answer = stepped(state);
        answers.push(answer);
        if answer.ended {
            return answers;
        }
    }
}

/// The address that won a contention, if one did.
pub fn winner(answers: &[Answer]) -> Option<u32> {
    match answers.last()?.event {
        Event::Success { address, .. } => Some(address),
        _ => None,
    }
}

pub fn listing_of(input: &[u8]) -> String {
    let mut lines = Lines::new(Vec::new());
    list(input, &mut lines);
    String::from_utf8(lines.finish()).expect("a listing is text")
}

pub fn set_up_record(discipline: u8, d: u32, a: u32, q: u16, n: u8) -> Vec<u8> {
    let mut record = vec![14, 0, 1, 0, discipline];
    record.extend(d.to_le_bytes());
    record.extend(a.to_le_bytes());
    record.extend(q.to_le_bytes());
    record.push(n);
    record
}

pub fn station_record(address: u16, capability: u16) -> Vec<u8> {
    let mut record = vec![6, 0, 2, 0];
    record.extend(address.to_le_bytes());
    record.extend(capability.to_le_bytes());
    record
}

pub fn arrival_record(time: u32, address: u16, value: u32, length: u16) -> Vec<u8> {
    let mut record = vec![14, 0, 3, 0];
    record.extend(time.to_le_bytes());
    record.extend(address.to_le_bytes());
    record.extend(value.to_le_bytes());
    record.extend(length.to_le_bytes());
    record
}

pub fn run_record(steps: u16) -> Vec<u8> {
    let mut record = vec![4, 0, 4, 0];
    record.extend(steps.to_le_bytes());
    record
}

/// What playing a script writes.
pub fn played(script: &str) -> String {
    let mut lines = Lines::new(Vec::new());
    drive(script.as_bytes(), &mut lines);
    String::from_utf8(lines.finish()).expect("what is written is text")
}

/// The all-zero state as it is written.
pub const WRITTEN_ZERO: &str =
    "settings 0 0 0 0 0\nclock 0\ncounts 0 0 0 0\nround 0 0\ncontention 0 0 0 0 0 0\nend\n";
