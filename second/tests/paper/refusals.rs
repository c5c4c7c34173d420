//! Each refusal number, its order among the others, and what a refused call hands back.

use second::admission::admit;
use second::refusal::Refusal;
use second::set_up::{set_up, RefusedSetUp};
use second::state::{Settings, State};
use second::step::{begin, probe, step};
use second::totals::totals;

use crate::worlds::{
    admit_all, arrival_record, fresh, listing_of, refused_admission, row, run_record,
    set_up_record, settings, station_record,
};

/// A set-up refused with a number and a station's place, and an all-zero state.
fn refused_set_up(settings: Settings, pairs: &[(u32, u32)], number: u32, place: usize) {
    let (passed, state) = set_up(settings, &row(pairs));
    let RefusedSetUp { refusal, station } = passed.expect_err("the set-up is refused");
    assert_eq!((refusal.number(), station), (number, place));
    assert!(state == State::ZERO);
}

#[test]
fn refusal_1() {
    let mut state = State::ZERO;
    assert_eq!(admit(&mut state, 0, 0, 1), Err(Refusal::LentState));
    assert_eq!(begin(&mut state), Err(Refusal::LentState));
    assert_eq!(probe(&mut state), Err(Refusal::LentState));
    assert_eq!(step(&mut state), Err(Refusal::LentState));
    assert_eq!(totals(&state), Err(Refusal::LentState));
    assert!(state == State::ZERO);
    assert_eq!(Refusal::LentState.number(), 1);
}

#[test]
fn refusals_2_to_6() {
    let one = [(1, 0)];
    refused_set_up(settings(3, 1, 1, 0, 0), &one, 2, 0);
    for d in [0, 1, 65_537, u32::MAX] {
        refused_set_up(settings(0, d, 1, 0, 0), &one, 3, 0);
    }
    for a in [0, 1, 65_537, u32::MAX] {
        refused_set_up(settings(0, 4, a, 0, 0), &one, 4, 0);
    }
    for (discipline, q) in [(0, 0), (0, 2), (1, 0), (1, 65_536), (2, 0), (2, 2)] {
        refused_set_up(settings(discipline, 4, 8, q, 0), &one, 5, 0);
    }
    for n in [0, 2, 65, u64::MAX] {
        refused_set_up(settings(0, 4, 8, 1, n), &one, 6, 0);
    }
}

#[test]
fn refusals_7_to_10() {
    refused_set_up(settings(0, 4, 8, 1, 2), &[(1, 0), (8, 1)], 7, 1);
    refused_set_up(settings(0, 4, 8, 1, 2), &[(1, 0), (1, 1)], 8, 1);
    refused_set_up(settings(0, 4, 8, 1, 1), &[(1, 1)], 9, 0);
    refused_set_up(settings(1, 4, 8, 1, 1), &[(1, 1)], 9, 0);
    refused_set_up(settings(2, 4, 8, 1, 1), &[(1, 4)], 9, 0);
    refused_set_up(settings(2, 4, 8, 1, 3), &[(1, 3), (2, 0), (3, 3)], 10, 2);
    refused_set_up(settings(2, 4, 8, 1, 3), &[(1, 3), (2, 4), (9, 0)], 9, 1);
}

#[test]
fn what_stands_past_n_is_unread() {
    let (passed, state) = set_up(settings(0, 4, 8, 1, 1), &row(&[(1, 0), (99, 99)]));
    assert_eq!(passed, Ok(()));
    assert!(state == fresh(0, 4, 8, 1, &[(1, 0)]));
}

#[test]
fn refusals_11_to_13() {
    let priorities = fresh(0, 4, 8, 1, &[(1, 0)]);
    refused_admission(&priorities, (0, 4, 0), 11, 0);
    refused_admission(&priorities, (1, 4, 0), 12, 0);
    refused_admission(&priorities, (1, 3, 0), 13, 0);
    refused_admission(&priorities, (1, 3, 4_097), 13, 0);
    let latest_starts = fresh(1, 4, 8, 1, &[(1, 0)]);
    refused_admission(&latest_starts, (1, 1_073_741_825, 1), 12, 0);
    let circuits = fresh(2, 4, 8, 1, &[(1, 0)]);
    refused_admission(&circuits, (1, 1, 1), 12, 0);
}

#[test]
fn refusals_14_to_16() {
    let mut state = fresh(1, 4, 8, 1, &[(1, 0)]);
    admit_all(&mut state, &[(1, 100, 1); 16]);
    state.clock = 50;
    state.admitted = 4_294_967_295;
    state.sent = 4_294_967_295 - 16;
    refused_admission(&state, (1, 49, 1), 14, 1);
    refused_admission(&state, (1, 50, 1), 15, 1);
    let mut spent = fresh(1, 4, 8, 1, &[(1, 0)]);
    spent.admitted = 4_294_967_295;
    spent.lost = 4_294_967_295;
    refused_admission(&spent, (1, 50, 1), 16, 0);
    spent.admitted -= 1;
    spent.lost -= 1;
    assert_eq!(admit(&mut spent, 1, 50, 1), Ok(4_294_967_295));
}

#[test]
fn refusal_17() {
    let mut state = fresh(1, 4, 8, 1, &[(1, 0)]);
    admit_all(&mut state, &[(1, 100, 1)]);
    state.clock = 1_073_737_729;
    let lent = state.clone();
    assert_eq!(step(&mut state).map_err(Refusal::number), Err(17));
    assert!(state == lent);
}

fn refused(input: &[u8], number: u32, offset: usize) {
    assert_eq!(
        listing_of(input),
        format!("REFUSED {number} {offset}\n"),
        "{input:?}"
    );
}

/// A scenario of two stations, without its run record: 32 bytes.
fn two_stations() -> Vec<u8> {
    [
        set_up_record(0, 4, 8, 1, 2),
        station_record(1, 0),
        station_record(2, 0),
    ]
    .concat()
}

#[test]
fn refusal_18() {
    refused(&[], 18, 0);
    refused(&[14, 0, 1], 18, 0);
    refused(&set_up_record(0, 4, 8, 1, 2)[..15], 18, 0);
    refused(&set_up_record(0, 4, 8, 1, 2), 18, 16);
    refused(&two_stations(), 18, 32);
    let short = [two_stations(), arrival_record(0, 1, 0, 1)].concat();
    refused(&short[..47], 18, 32);
    refused(&short, 18, 48);
    refused(&[two_stations(), run_record(1)].concat()[..37], 18, 32);
}

#[test]
fn refusal_19() {
    refused(&[14, 0, 0, 0], 19, 0);
    refused(&[14, 0, 5, 0], 19, 0);
    refused(&[14, 0, 1, 1], 19, 0);
    refused(&[13, 0, 1, 0], 19, 0);
    refused(&[6, 0, 3, 0], 19, 0);
    refused(&[two_stations(), vec![5, 0, 4, 0, 1, 0]].concat(), 19, 32);
}

#[test]
fn refusal_20() {
    refused(&station_record(1, 0), 20, 0);
    refused(&run_record(1), 20, 0);
    let second_set_up = [two_stations(), set_up_record(9, 4, 8, 1, 2)].concat();
    refused(&second_set_up, 20, 32);
    refused(&[two_stations(), station_record(3, 0)].concat(), 20, 32);
    refused(
        &[two_stations()[..24].to_vec(), run_record(1)].concat(),
        20,
        24,
    );
    let early_arrival = [two_stations()[..16].to_vec(), arrival_record(0, 1, 0, 1)].concat();
    refused(&early_arrival, 20, 16);
    refused(&[two_stations(), run_record(1), vec![0]].concat(), 20, 38);
    refused(
        &[two_stations(), run_record(1), run_record(1)].concat(),
        20,
        38,
    );
}

#[test]
fn refusal_21() {
    let input = [
        two_stations(),
        arrival_record(5, 1, 0, 1),
        arrival_record(5, 1, 0, 1),
        arrival_record(4, 1, 0, 1),
    ]
    .concat();
    refused(&input, 21, 64);
}

#[test]
fn refusal_22() {
    let mut input = two_stations();
    while input.len() + 16 <= 65_530 {
        input.extend(arrival_record(0, 1, 0, 1));
    }
    input.extend(run_record(0));
    input.resize(65_536, 0);
    refused(&input, 20, 65_526);
    input.resize(65_537, 0);
    refused(&input, 22, 0);
}

#[test]
fn set_up_refusals_of_a_scenario() {
    refused(&set_up_record(3, 4, 8, 1, 2), 2, 0);
    refused(&set_up_record(0, 65_537, 8, 1, 2), 3, 0);
    refused(&set_up_record(0, 4, 1, 1, 2), 4, 0);
    refused(&set_up_record(0, 4, 8, 2, 2), 5, 0);
    refused(&set_up_record(0, 4, 8, 1, 65), 6, 0);
    let stations = |first: (u16, u16), second: (u16, u16)| {
        [
            set_up_record(2, 4, 8, 1, 2),
            station_record(first.0, first.1),
            station_record(second.0, second.1),
        ]
        .concat()
    };
    refused(&stations((8, 0), (9, 0)), 7, 16);
    refused(&stations((1, 0), (1, 1)), 8, 24);
    refused(&stations((1, 4), (1, 1)), 9, 16);
    refused(&stations((1, 1), (2, 1)), 10, 24);
    refused(&stations((8, 0), (9, 0))[..24], 18, 24);
}
