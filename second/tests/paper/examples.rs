//! Every example of the section "Settled examples".

use second::admission::admit;
use second::refusal::Refusal;
use second::state::{first_window, State};
use second::step::{step, Event};

use crate::worlds::{admit_all, contention, fresh, stepped, winner};

#[test]
fn first_windows() {
    assert_eq!([2, 4, 5, 65_536].map(first_window), [2, 4, 8, 65_536]);
}

/// The parameter that a packet with one latest start is given at T 100, D 8, q 10.
fn level_at_100(latest_start: u32) -> (u64, Option<u64>) {
    let mut state = fresh(1, 8, 8, 10, &[(1, 0), (2, 0)]);
    admit_all(
        &mut state,
        &[(1, latest_start, 1), (2, 100, 1), (2, 100, 1)],
    );
    state.clock = 100;
    let first = stepped(&mut state);
    let contender = state.contenders[0];
    (
        first.drops,
        contender.contends.then_some(contender.parameter),
    )
}

#[test]
fn levels_of_laxity() {
    assert_eq!(level_at_100(100), (0, Some(0)));
    assert_eq!(level_at_100(109), (0, Some(0)));
    assert_eq!(level_at_100(110), (0, Some(1)));
    assert_eq!(level_at_100(179), (0, Some(7)));
    assert_eq!(level_at_100(180), (0, Some(7)));
    assert_eq!(level_at_100(99), (1, None));
}

#[test]
fn late_contenders_are_dropped_by_the_next_contention() {
    let mut state = fresh(1, 2, 8, 1, &[(1, 0), (2, 0)]);
    admit_all(&mut state, &[(1, 0, 1), (2, 1, 1)]);
    let answers = contention(&mut state);
    let events: Vec<Event> = answers.iter().map(|answer| answer.event).collect();
    assert_eq!(events, [Event::Collision, Event::Idle, Event::Idle]);
    assert_eq!(winner(&answers), None);
    let next = stepped(&mut state);
    assert_eq!((next.slot, next.drops, state.lost), (3, 2, 2));
}

#[test]
fn a_round_of_circuits() {
    let mut state = fresh(2, 4, 8, 1, &[(5, 0), (6, 1), (7, 3)]);
    admit_all(&mut state, &[(6, 0, 1), (7, 0, 1)]);
    state.won = true;
    state.last = 1;
    assert_eq!(winner(&contention(&mut state)), Some(7));
    assert_eq!((state.won, state.last), (true, 3));
    let between = contention(&mut state);
    assert_eq!((between.len(), between[0].event), (1, Event::Idle));
    assert_eq!((state.won, state.last), (false, 0));
    assert_eq!(winner(&contention(&mut state)), Some(6));
}

/// N packets, each with at most 2L - 1 probes before it, and the idle contention between rounds.
fn bound(stations: u32, halvings: u32, length: u32) -> u32 {
    stations * (length + 2 * halvings - 1) + 1
}

/// The slot by which a waiting circuit's first packet has been sent, when all circuits wait.
fn served_by(mut state: State, address: u32) -> u32 {
    while winner(&contention(&mut state)) != Some(address) {}
    state.clock
}

#[test]
fn bound_of_the_service_time() {
    assert_eq!(bound(3, 2, 5), 25);
    for left_out in 0..4 {
        let capabilities: Vec<u32> = (0..4).filter(|&c| c != left_out).collect();
        let pairs: Vec<(u32, u32)> = capabilities.iter().map(|&c| (c + 1, c)).collect();
        for last in [None, Some(0), Some(1), Some(2)] {
            let mut state = fresh(2, 4, 8, 1, &pairs);
            for &(address, _) in &pairs {
                admit_all(&mut state, &[(address, 0, 5); 4]);
            }
            if let Some(place) = last {
                state.won = true;
                state.last = capabilities[place];
            }
            for &(address, _) in &pairs {
                assert!(served_by(state.clone(), address) <= bound(3, 2, 5));
            }
        }
    }
}

#[test]
fn probes_of_the_listing() {
    let mut state = fresh(0, 4, 8, 1, &[(1, 0), (5, 0), (6, 0)]);
    admit_all(&mut state, &[(5, 2, 3), (6, 2, 1), (1, 3, 2)]);
    assert_eq!(contention(&mut state).len(), 8);
    assert_eq!(contention(&mut state).len(), 4);
}

#[test]
fn addresses_are_compared_in_full() {
    let mut state = fresh(0, 4, 512, 1, &[(263, 0), (7, 0)]);
    admit_all(&mut state, &[(263, 2, 1), (7, 2, 1)]);
    assert_eq!(winner(&contention(&mut state)), Some(7));
}

#[test]
fn the_clock_of_the_last_step() {
    let mut state = fresh(0, 4, 8, 1, &[(1, 0)]);
    admit_all(&mut state, &[(1, 0, 4_096)]);
    state.clock = 1_073_737_728;
    let mut late = state.clone();
    assert!(step(&mut state).is_ok());
    assert_eq!(state.clock, 1_073_741_824);
    late.clock = 1_073_737_729;
    assert_eq!(step(&mut late), Err(Refusal::ClockSpent));
}

#[test]
fn packet_lengths() {
    let mut state = fresh(0, 4, 8, 1, &[(1, 0)]);
    assert_eq!(admit(&mut state, 1, 0, 4_096), Ok(1));
    assert_eq!(admit(&mut state, 1, 0, 0), Err(Refusal::Length));
    assert_eq!(admit(&mut state, 1, 0, 4_097), Err(Refusal::Length));
}

#[test]
fn the_seventeenth_packet() {
    let mut state = fresh(0, 4, 8, 1, &[(1, 0)]);
    admit_all(&mut state, &[(1, 0, 1); 16]);
    assert_eq!(admit(&mut state, 1, 0, 1), Err(Refusal::QueueFilled));
}

#[test]
fn latest_start_equal_to_the_clock() {
    let mut state = fresh(1, 4, 8, 1, &[(1, 0)]);
    state.clock = 10;
    assert_eq!(admit(&mut state, 1, 9, 1), Err(Refusal::LatestStart));
    assert_eq!(admit(&mut state, 1, 10, 1), Ok(1));
}
