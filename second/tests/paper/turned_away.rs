//! The count of packets turned away: what raises it, where it stops, and what leaves it.

use second::admission::admit;
use second::refusal::Refusal;
use second::standing::stands;
use second::state::State;
use second::step::{begin, probe, step};
use second::totals::totals;

use crate::worlds::{admit_all, contention, fresh, played, refused_admission, stepped};

/// "The count stops at 4,294,967,295."
const STOP: u64 = 4_294_967_295;

/// RTDG at slot 50, with 7 turned away: station 1 has 16 packets waiting, station 2 none.
fn crowded() -> State {
    let mut state = fresh(1, 4, 8, 10, &[(1, 0), (2, 0)]);
    admit_all(&mut state, &[(1, 100, 1); 16]);
    state.clock = 50;
    state.turned_away = 7;
    state
}

/// The same with all packets admitted that may be.
fn spent() -> State {
    let mut state = crowded();
    state.admitted = 4_294_967_295;
    state.lost = 4_294_967_295 - 16;
    state
}

#[test]
fn raised_by_14_and_15() {
    for state in [crowded(), spent()] {
        refused_admission(&state, (2, 49, 1), 14, 8);
        refused_admission(&state, (2, 0, 4_096), 14, 8);
        refused_admission(&state, (1, 49, 1), 14, 8);
        refused_admission(&state, (1, 50, 1), 15, 8);
        refused_admission(&state, (1, 1_073_741_824, 1), 15, 8);
    }
}

#[test]
fn not_raised_by_11_12_13_and_16() {
    for state in [crowded(), spent()] {
        for address in [0, 3, 257] {
            refused_admission(&state, (address, 49, 1), 11, 7);
            refused_admission(&state, (address, 50, 0), 11, 7);
        }
        for address in [1, 2] {
            refused_admission(&state, (address, 1_073_741_825, 1), 12, 7);
            refused_admission(&state, (address, 49, 0), 13, 7);
            refused_admission(&state, (address, 50, 4_097), 13, 7);
        }
    }
    refused_admission(&spent(), (2, 50, 1), 16, 7);
}

#[test]
fn an_accepted_admission_leaves_it() {
    let mut state = crowded();
    assert_eq!(admit(&mut state, 1, 49, 1), Err(Refusal::LatestStart));
    assert_eq!(admit(&mut state, 2, 50, 1), Ok(17));
    assert_eq!(admit(&mut state, 1, 50, 1), Err(Refusal::QueueFilled));
    assert_eq!(admit(&mut state, 2, 50, 1), Ok(18));
    assert_eq!(state.turned_away, 9);
}

/// A priority is no slot, and no circuit is late.
#[test]
fn other_disciplines_turn_away_for_want_of_a_place_alone() {
    for discipline in [0, 2] {
        let mut state = fresh(discipline, 4, 8, 1, &[(1, 0)]);
        state.clock = 50;
        admit_all(&mut state, &[(1, 0, 1); 16]);
        assert_eq!(state.turned_away, 0);
        refused_admission(&state, (1, 0, 1), 15, 1);
        refused_admission(&state, (1, 4, 1), 12, 0);
        contention(&mut state);
        assert_eq!(admit(&mut state, 1, 0, 1), Ok(17));
        refused_admission(&state, (1, 0, 1), 15, 1);
    }
}

#[test]
fn the_stop() {
    let mut state = crowded();
    for (packet, number) in [((2, 49, 1), 14), ((1, 50, 1), 15)] {
        state.turned_away = STOP - 2;
        refused_admission(&state, packet, number, STOP - 1);
        state.turned_away = STOP - 1;
        refused_admission(&state, packet, number, STOP);
        state.turned_away = STOP;
        refused_admission(&state, packet, number, STOP);
        for above in [STOP + 1, STOP + 2, 1 << 63, u64::MAX] {
            state.turned_away = above;
            refused_admission(&state, packet, 1, above);
        }
    }
}

#[test]
fn a_state_at_the_stop_stands() {
    let mut state = crowded();
    state.turned_away = STOP;
    assert_eq!(admit(&mut state, 1, 49, 1), Err(Refusal::LatestStart));
    assert!(stands(&state));
    assert_eq!(admit(&mut state, 2, 50, 1), Ok(17));
    stepped(&mut state);
    assert_eq!(totals(&state).map(|totals| totals.turned_away), Ok(STOP));
}

/// "These two refusals now leave the state as it was but for that count", also in a contention.
#[test]
fn what_a_15_hands_back() {
    for discipline in [0, 1, 2] {
        let value = if discipline == 1 { 60 } else { 0 };
        let capability = |place| if discipline == 2 { place } else { 0 };
        let pairs = [5, 6, 7].map(|address| (address, capability(address - 4)));
        let mut state = fresh(discipline, 4, 8, 1, &pairs);
        admit_all(&mut state, &[(5, value, 2); 16]);
        admit_all(&mut state, &[(6, value, 3), (7, value, 1)]);
        for _ in 0..12 {
            if state.waiting[0] < 16 {
                admit_all(&mut state, &[(5, value, 1)]);
            }
            refused_admission(&state, (5, value, 1), 15, 1);
            stepped(&mut state);
        }
    }
}

#[test]
fn begins_probes_and_steps_leave_it() {
    let mut state = crowded();
    assert_eq!(probe(&mut state), Err(Refusal::NoContention));
    assert!(begin(&mut state).is_ok());
    assert_eq!(begin(&mut state), Err(Refusal::ContentionUnderWay));
    assert!(probe(&mut state).is_ok());
    state.clock = 101;
    assert_eq!(stepped(&mut state).drops, 15);
    assert_eq!((state.lost, state.turned_away), (15, 7));
    state.clock = 1_073_741_824;
    assert_eq!(step(&mut state), Err(Refusal::ClockSpent));
    assert_eq!(state.turned_away, 7);
}

#[test]
fn a_set_up_starts_it_at_0() {
    let written = played("E 32 0 9 U 0 4 8 1 1 1 1 1 0 T");
    assert!(written.starts_with("U 0 0\nT 0 0 0 0 0 0 0\n"));
    let written = played("E 32 0 9 U 3 4 8 1 1 1 1 1 0");
    assert!(written.contains("U 2 0\nsettings 0 0 0 0 0\nclock 0\ncounts 0 0 0 0\n"));
}

/// A packet turned away has no number, and is not counted as admitted.
#[test]
fn in_a_script() {
    let script = "U 1 4 8 1 1 1 1 5 0 E 8 0 3 A 5 2 1 A 5 3 1 A 5 0 0 A 5 0 1 A 6 0 1 A 5 9 1 T";
    let expected = "\
U 0 0
A 14 0
A 0 1
A 13 0
A 14 0
A 11 0
A 0 2
T 0 3 2 0 0 2 2
settings 1 4 8 1 1
clock 3
counts 2 0 0 2
round 0 0
contention 0 0 0 0 0 0
station 0 5 0
queue 0 2
packet 0 1 3 1 3
packet 1 2 9 1 3
end
";
    assert_eq!(played(script), expected);
}

#[test]
fn the_stop_in_a_script() {
    let late = "U 1 4 8 1 1 1 1 5 0 E 8 0 3";
    let written = |count: u64| played(&format!("{late} E 32 0 {count} A 5 2 1 T"));
    for count in [STOP - 1, STOP] {
        assert!(written(count).starts_with("U 0 0\nA 14 0\nT 0 3 0 0 0 0 4294967295\n"));
    }
    for count in [STOP + 1, u64::MAX] {
        assert!(written(count).starts_with("U 0 0\nA 1 0\nT 1 0 0 0 0 0 0\n"));
        assert!(written(count).contains(&format!("\ncounts 0 0 0 {count}\n")));
    }
}

#[test]
fn in_a_stretch() {
    let arrivals = "0 1 9 1 ".repeat(18);
    let script = format!("U 1 4 8 1 1 1 1 1 0 R 2 19 19 {arrivals} 1 1 0 1 T");
    let taken: String = (0..16)
        .map(|place| {
            format!(
                "call {place} 1 0 1 0 {} 0 0 0 0 0 0 0 0 0 0 0 0\n",
                place + 1
            )
        })
        .collect();
    let expected = format!(
        "U 0 0
{taken}call 16 1 0 1 15 0 0 0 0 0 0 0 0 0 0 0 0 0
call 17 1 0 1 15 0 0 0 0 0 0 0 0 0 0 0 0 0
call 18 0 0 0 0 0 0 0 0 0 0 4 2 1 1 1 0 1
call 19 1 1 1 14 0 0 0 0 0 0 0 0 0 0 0 0 0
call 20 0 1 0 0 0 0 0 1 0 0 4 2 1 2 1 1 1
R 21 19 0
T 0 2 16 2 0 14 3
settings 1 4 8 1 1
clock 2
counts 16 2 0 3
"
    );
    let written = played(&script);
    assert!(written.starts_with(&expected), "{written}");
}

#[test]
fn the_stop_in_a_stretch() {
    let late = "0 1 0 1 ".repeat(3);
    let script = format!("U 1 4 8 1 1 1 1 1 0 E 8 0 5 E 32 0 4294967293 R 1 3 3 {late} T");
    assert!(played(&script).contains("\nR 4 3 0\nT 0 6 0 0 0 0 4294967295\n"));
}
