//! Beginning a contention and probing one slot as two calls: refusals 25 and 26, what a begin answers, and
//! that a step is the two.

use second::admission::admit;
use second::refusal::Refusal;
use second::standing::stands;
use second::state::State;
use second::step::{begin, probe, step, Answer, Beginning, Event, Offer};

use crate::worlds::{admit_all, contention, fresh, played, WRITTEN_ZERO};

/// The clocks around the last one that a probe is accepted at, and the last of all.
const LAST_PROBED: u32 = 1_073_737_728;
const CLOCKS: [u32; 3] = [LAST_PROBED, LAST_PROBED + 1, 1_073_741_824];

fn began(state: &mut State) -> Beginning {
    begin(state).expect("the begin is accepted")
}

fn probed(state: &mut State) -> Answer {
    probe(state).expect("the probe is accepted")
}

/// A begin refused with a number, the state as lent.
fn refused_begin(state: &State, number: u32) {
    let mut lent = state.clone();
    assert_eq!(begin(&mut lent).map_err(Refusal::number), Err(number));
    assert!(lent == *state);
}

/// A probe refused with a number, the state as lent.
fn refused_probe(state: &State, number: u32) {
    let mut lent = state.clone();
    assert_eq!(probe(&mut lent).map_err(Refusal::number), Err(number));
    assert!(lent == *state);
}

/// Two stations, each with a packet.
fn two_waiting() -> State {
    let mut state = fresh(0, 5, 512, 1, &[(263, 0), (6, 0), (7, 0)]);
    admit_all(&mut state, &[(263, 4, 3), (263, 2, 1), (7, 3, 2)]);
    state
}

#[test]
fn what_a_begin_answers() {
    let mut state = two_waiting();
    state.clock = 9;
    let lent = state.clone();
    let expected = Beginning {
        drops: 0,
        slot: 9,
        start: 0,
        size: 8,
        contenders: 0b101,
        offers: vec![
            Offer {
                place: 0,
                address: 263,
                number: 2,
                parameter: 2,
            },
            Offer {
                place: 2,
                address: 7,
                number: 3,
                parameter: 3,
            },
        ],
    };
    assert_eq!(began(&mut state), expected);
    assert!(stands(&state) && state.contention.begun);
    assert_eq!((state.clock, state.waiting), (lent.clock, lent.waiting));
}

#[test]
fn refusal_25() {
    let mut state = two_waiting();
    began(&mut state);
    refused_begin(&state, 25);
    probed(&mut state);
    refused_begin(&state, 25);
    for clock in CLOCKS {
        state.clock = clock;
        refused_begin(&state, 25);
    }
    let mut stepped = two_waiting();
    assert!(step(&mut stepped).is_ok());
    refused_begin(&stepped, 25);
}

#[test]
fn refusal_26() {
    let mut state = two_waiting();
    refused_probe(&state, 26);
    for clock in CLOCKS {
        state.clock = clock;
        refused_probe(&state, 26);
    }
    let mut ended = two_waiting();
    contention(&mut ended);
    refused_probe(&ended, 26);
}

#[test]
fn both_after_1() {
    for clock in [0, LAST_PROBED + 1] {
        let mut state = two_waiting();
        state.clock = clock;
        let mut under_way = state.clone();
        began(&mut under_way);
        for faulty in [&mut state, &mut under_way] {
            faulty.sent += 1;
            refused_begin(faulty, 1);
            refused_probe(faulty, 1);
        }
    }
    refused_begin(&State::ZERO, 1);
    refused_probe(&State::ZERO, 1);
}

#[test]
fn a_begin_at_any_clock_and_17_of_the_probe() {
    for clock in CLOCKS {
        let mut state = two_waiting();
        state.clock = clock;
        assert_eq!(began(&mut state).slot, clock);
        assert!(stands(&state) && state.clock == clock);
        if clock == LAST_PROBED {
            assert_eq!(probed(&mut state).event, Event::Collision);
        }
        refused_probe(&state, 17);
    }
}

#[test]
fn a_step_refused_with_17_begins_nothing() {
    let mut state = fresh(1, 4, 8, 1, &[(1, 0)]);
    admit_all(&mut state, &[(1, 5, 1)]);
    for clock in [LAST_PROBED + 1, 1_073_741_824] {
        state.clock = clock;
        let mut lent = state.clone();
        assert_eq!(step(&mut lent), Err(Refusal::ClockSpent));
        assert!(lent == state);
        assert_eq!(began(&mut lent).drops, 1);
        let begun = lent.clone();
        assert_eq!(step(&mut lent), Err(Refusal::ClockSpent));
        assert!(lent == begun);
    }
}

/// "A packet admitted between the two does not join": neither where its station has an offer nor where
/// it has none.
#[test]
fn a_newcomer_does_not_join() {
    let mut state = two_waiting();
    let offers = began(&mut state).offers;
    admit_all(&mut state, &[(6, 0, 1), (263, 0, 1)]);
    let answers: Vec<Answer> = std::iter::from_fn(|| probe(&mut state).ok()).collect();
    let Some(Event::Success { number, .. }) = answers.last().map(|answer| answer.event) else {
        panic!("the contention has a winner");
    };
    assert_eq!((answers.len(), number), (5, offers[0].number));
    let next = began(&mut state);
    let numbers: Vec<u32> = next.offers.iter().map(|offer| offer.number).collect();
    assert_eq!((next.contenders, numbers), (0b111, vec![5, 4, 3]));
}

#[test]
fn a_contention_without_contenders() {
    let mut state = fresh(0, 4, 8, 1, &[(1, 0)]);
    let answer = began(&mut state);
    assert_eq!((answer.contenders, answer.offers), (0, vec![]));
    refused_begin(&state, 25);
    assert_eq!(admit(&mut state, 1, 0, 1), Ok(1));
    let only = probed(&mut state);
    assert_eq!((only.event, only.ended), (Event::Idle, true));
    assert_eq!((only.slot, only.size, state.clock), (0, 4, 1));
    refused_probe(&state, 26);
}

/// The round ends by the probe that finds nobody, not by the beginning; who sits out has no offer.
#[test]
fn a_circuit_that_sits_out() {
    let mut state = fresh(2, 4, 8, 1, &[(5, 0), (6, 1)]);
    admit_all(&mut state, &[(5, 0, 1)]);
    state.won = true;
    state.last = 1;
    assert_eq!(began(&mut state).contenders, 0);
    assert_eq!((state.won, state.last), (true, 1));
    assert!(probed(&mut state).ended);
    assert_eq!((state.won, state.last), (false, 0));
    assert_eq!(began(&mut state).contenders, 1);
}

#[test]
fn drops_are_the_begins() {
    let mut state = fresh(1, 8, 8, 10, &[(1, 0), (2, 0)]);
    admit_all(&mut state, &[(1, 99, 1), (2, 98, 1), (2, 110, 1)]);
    state.clock = 100;
    let answer = began(&mut state);
    assert_eq!((answer.drops, state.lost, answer.contenders), (2, 2, 0b10));
    assert_eq!(
        (answer.offers[0].number, answer.offers[0].parameter),
        (3, 1)
    );
    assert_eq!((state.waiting[0], state.waiting[1]), (0, 1));
    let first = probed(&mut state);
    assert_eq!((first.drops, first.slot, state.lost), (0, 100, 2));
}

#[test]
fn all_64_contend() {
    let pairs: Vec<(u32, u32)> = (0..64).map(|place| (100 - place, 0)).collect();
    let mut state = fresh(0, 4, 128, 1, &pairs);
    for &(address, _) in &pairs {
        admit_all(&mut state, &[(address, 1, 1)]);
    }
    let answer = began(&mut state);
    assert_eq!((answer.contenders, answer.offers.len()), (u64::MAX, 64));
    let last = answer.offers[63];
    assert_eq!((last.place, last.address, last.number), (63, 37, 64));
}

/// A step where none is under way is a begin and a probe, with the begin's drops; else it is a probe.
#[test]
fn a_step_is_a_begin_and_a_probe() {
    for (discipline, value) in [(0, 3), (1, 60), (2, 0)] {
        let capability = |place| if discipline == 2 { place } else { 0 };
        let pairs: Vec<(u32, u32)> = (0..4).map(|i| (i + 1, capability(i))).collect();
        let mut steps = fresh(discipline, 5, 8, 1, &pairs);
        for (address, _) in pairs {
            admit_all(&mut steps, &[(address, value, 2), (address, value, 9)]);
        }
        let mut calls = steps.clone();
        for _ in 0..80 {
            let stepped = step(&mut steps).expect("the step is accepted");
            let drops = match begin(&mut calls) {
                Ok(beginning) => beginning.drops,
                Err(refusal) => u64::from(refusal != Refusal::ContentionUnderWay),
            };
            let answer = probed(&mut calls);
            assert_eq!(answer.drops, 0);
            assert_eq!(stepped, Answer { drops, ..answer });
            assert!(steps == calls);
        }
        assert_eq!(steps.lost > 0, discipline == 1);
    }
}

#[test]
fn begin_and_probe_in_a_script() {
    let script = "U 1 5 512 10 3 3 3 263 0 6 0 7 0 A 6 1 1 A 263 45 3 A 7 22 2 E 8 0 2 O B B S O T";
    let expected = "\
U 0 0
A 0 1
A 0 2
A 0 3
O 26 0 0 0 0 0 0 0 0 0 0 0
B 0 1 2 0 8 5
offer 0 263 2 4
offer 2 7 3 2
B 25 0 0 0 0 0
S 0 0 2 0 0 8 1 0 0 0 0 0
O 0 0 3 0 0 4 2 7 3 2 3 1
T 0 5 3 1 1 1 0
settings 1 5 512 10 3
";
    let written = played(script);
    assert!(written.starts_with(expected), "{written}");
}

#[test]
fn begin_and_probe_on_a_zero_state() {
    let expected = format!("B 1 0 0 0 0 0\nO 1 0 0 0 0 0 0 0 0 0 0 0\n{WRITTEN_ZERO}");
    assert_eq!(played("B 1 2 O 3 # B O\n"), expected);
}
