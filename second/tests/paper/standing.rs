//! Each standing condition, broken by itself in a state that stands otherwise.

use second::admission::admit;
use second::refusal::Refusal;
use second::standing::stands;
use second::state::{Packet, Side, State};
use second::step::step;
use second::totals::totals;

use crate::worlds::{admit_all, contention, fresh, stepped};

/// A change that breaks a state.
type Break = fn(&mut State);

/// Every call refuses each of the broken states with 1 and hands it back as lent.
fn breaks(state: &State, changes: &[Break]) {
    assert!(stands(state));
    for (place, change) in changes.iter().enumerate() {
        let mut broken = state.clone();
        change(&mut broken);
        assert!(broken != *state, "change {place} changes nothing");
        let lent = broken.clone();
        let refused = Err(Refusal::LentState);
        assert_eq!(totals(&broken).map(|_| ()), refused, "change {place}");
        assert_eq!(step(&mut broken).map(|_| ()), refused, "change {place}");
        let admitted = admit(&mut broken, 1, 0, 1).map(|_| ());
        assert_eq!(admitted, refused, "change {place}");
        assert!(broken == lent);
    }
}

/// Each of the changed states still stands.
fn keeps(state: &State, changes: &[Break]) {
    for (place, change) in changes.iter().enumerate() {
        let mut changed = state.clone();
        change(&mut changed);
        assert!(stands(&changed), "change {place}");
    }
}

/// PRI between contentions, five packets waiting at two of three stations.
fn between() -> State {
    let mut state = fresh(0, 4, 8, 1, &[(1, 0), (5, 0), (6, 0)]);
    admit_all(
        &mut state,
        &[(5, 2, 3), (6, 2, 1), (5, 3, 1), (6, 3, 1), (5, 3, 1)],
    );
    state
}

/// The same at slot 70,000, its last packet admitted in that slot.
fn later() -> State {
    let mut state = between();
    state.clock = 70_000;
    state.packets[18].admission = 70_000;
    state
}

/// PRI in the parameter phase at the left half 0 to 1 of the first window.
fn in_parameter_phase() -> State {
    let mut state = between();
    stepped(&mut state);
    state
}

/// PRI in the tie phase of parameter 2, at the first window of A.
fn in_tie_phase() -> State {
    let mut state = between();
    for _ in 0..4 {
        stepped(&mut state);
    }
    assert!(state.contention.tied);
    state
}

/// RTVC with a last winner, the next contention begun.
fn in_round() -> State {
    let mut state = fresh(2, 4, 8, 1, &[(1, 0), (5, 2), (6, 3)]);
    admit_all(&mut state, &[(1, 0, 1), (5, 0, 1), (6, 0, 1)]);
    contention(&mut state);
    stepped(&mut state);
    assert!(state.won && state.contention.begun);
    state
}

/// RTDG in its first contention.
fn in_laxities() -> State {
    let mut state = fresh(1, 4, 8, 10, &[(1, 0), (5, 0)]);
    admit_all(&mut state, &[(1, 5, 1), (5, 25, 1)]);
    stepped(&mut state);
    state
}

#[test]
fn settings_and_stations() {
    breaks(
        &between(),
        &[
            |s| s.settings.discipline = 3,
            |s| s.settings.d = 1,
            |s| s.settings.a = 65_537,
            |s| s.settings.q = 2,
            |s| s.settings.n = 0,
            |s| s.settings.n = 65,
            |s| s.settings.n = u64::MAX,
            |s| s.stations[0].address = 8,
            |s| s.stations[0].address = 5,
            |s| s.stations[0].capability = 1,
        ],
    );
    breaks(
        &in_round(),
        &[
            |s| {
                s.stations[0].capability = 3;
                s.last = 3;
            },
            |s| {
                s.stations[0].capability = 4;
                s.last = 3;
            },
        ],
    );
}

#[test]
fn clock_and_counts() {
    breaks(
        &between(),
        &[
            |s| s.clock = 1_073_741_825,
            |s| {
                s.admitted = 4_294_967_296;
                s.sent = 4_294_967_296 - 5;
            },
            |s| s.admitted += 1,
            |s| s.sent += 1,
            |s| s.lost += 1,
            |s| s.sent = u64::MAX,
            |s| {
                s.sent = u64::MAX;
                s.lost = 1;
            },
            |s| s.turned_away = 4_294_967_296,
            |s| s.turned_away = 1 << 63,
            |s| s.turned_away = u64::MAX,
            |s| {
                s.admitted += 1;
                s.turned_away = 1;
            },
        ],
    );
    keeps(
        &between(),
        &[
            |s| s.clock = 1_073_741_824,
            |s| {
                s.admitted = 4_294_967_295;
                s.sent = 4_294_967_295 - 5;
            },
            |s| s.turned_away = 1,
            |s| s.turned_away = 4_294_967_295,
        ],
    );
    for state in [
        in_parameter_phase(),
        in_tie_phase(),
        in_round(),
        in_laxities(),
    ] {
        breaks(&state, &[|s| s.turned_away = 4_294_967_296]);
    }
    for discipline in [0, 1, 2] {
        let empty = fresh(discipline, 4, 8, 1, &[(1, 0)]);
        keeps(&empty, &[|s| s.turned_away = 4_294_967_295]);
    }
}

#[test]
fn queues() {
    breaks(
        &between(),
        &[
            |s| {
                s.waiting[0] = 17;
                s.admitted += 17;
            },
            |s| s.waiting[0] = u64::MAX,
            |s| s.packets[16].number = 0,
            |s| {
                s.packets[18].number = 6;
            },
            |s| s.packets.swap(16, 17),
            |s| s.packets[17].number = 1,
            |s| s.packets[17].number = 2,
            |s| s.packets[16].value = 4,
            |s| s.packets[16].length = 0,
            |s| s.packets[16].length = 4_097,
            |s| s.packets[16].admission = 1,
            |s| s.packets[18].admission = 1,
            |s| s.packets[33].admission = u32::MAX,
        ],
    );
    breaks(&in_laxities(), &[|s| s.packets[0].value = 1_073_741_825]);
    keeps(
        &later(),
        &[|s| s.clock = 1_073_741_824, |s| s.packets[18].admission = 0],
    );
    breaks(
        &later(),
        &[
            |s| s.clock = 69_999,
            |s| s.packets[17].admission = 70_001,
            |s| s.packets[17].admission = 131_072,
        ],
    );
    breaks(&in_round(), &[|s| s.packets[32].value = 1]);
}

#[test]
fn rounds() {
    breaks(&between(), &[|s| s.won = true, |s| s.last = 1]);
    breaks(&in_round(), &[|s| s.last = 1, |s| s.last = 4]);
    let mut first = in_round();
    assert_eq!(first.last, 0);
    first.last = 3;
    assert!(stands(&first));
    first.won = false;
    assert!(!stands(&first));
}

#[test]
fn windows() {
    breaks(
        &in_parameter_phase(),
        &[
            |s| s.contention.window.size = 0,
            |s| s.contention.window.size = 3,
            |s| s.contention.window.size = 8,
            |s| s.contention.window.size = 1 << 63,
            |s| s.contention.window.start = 4,
            |s| s.contention.window.start = 1,
            |s| s.contention.window.start = u64::MAX - 1,
            |s| s.contention.window.side = Side::Right,
            |s| s.contention.window.start = 2,
            |s| s.contention.window.size = 4,
            |s| s.contention.tie = 1,
        ],
    );
    breaks(
        &in_tie_phase(),
        &[
            |s| s.contention.window.size = 16,
            |s| s.contention.window.side = Side::Left,
            |s| s.contention.tie = 4,
            |s| s.contention.tie = u64::MAX,
            |s| s.contention.tied = false,
        ],
    );
    keeps(
        &in_tie_phase(),
        &[
            |s| s.contention.tie = 0,
            |s| {
                s.contention.window.start = 7;
                s.contention.window.size = 1;
            },
        ],
    );
}

#[test]
fn contenders() {
    breaks(
        &in_parameter_phase(),
        &[
            |s| s.contenders[1].packet.number = 2,
            |s| s.contenders[1].packet.length = 1,
            |s| s.contenders[1].packet.admission = 1,
            |s| s.packets[16].admission = 1,
            |s| s.contenders[1].packet = s.contenders[2].packet,
            |s| s.contenders[1].parameter = 3,
            |s| s.contenders[0].contends = true,
            |s| s.contenders[1].contends = false,
            |s| s.contenders[0].parameter = 1,
        ],
    );
    breaks(&in_round(), &[|s| s.contenders[2].parameter = 2]);
    breaks(&in_laxities(), &[|s| s.contenders[1].parameter = 4]);
    keeps(&in_laxities(), &[|s| s.contenders[1].parameter = 3]);
}

#[test]
fn what_has_no_meaning() {
    breaks(
        &between(),
        &[
            |s| s.packets[19].number = 1,
            |s| s.packets[0].value = 1,
            |s| s.packets[31].length = 1,
            |s| s.stations[3].address = 1,
            |s| s.stations[63].capability = 1,
            |s| {
                s.waiting[3] = 1;
                s.admitted += 1;
                s.packets[48] = Packet {
                    number: 6,
                    value: 0,
                    length: 1,
                    admission: 0,
                };
            },
            |s| s.packets[1_023].length = 1,
            |s| s.contenders[63].parameter = 1,
            |s| s.contention.begun = true,
            |s| s.contention.window.start = 1,
            |s| s.contention.window.size = 4,
            |s| s.contention.window.side = Side::Right,
            |s| s.contention.tied = true,
            |s| s.contention.tie = 1,
            |s| s.contenders[1].contends = true,
            |s| s.contenders[1].parameter = 1,
            |s| s.contenders[1].packet.number = 1,
        ],
    );
    breaks(
        &in_parameter_phase(),
        &[
            |s| s.contenders[3].contends = true,
            |s| s.contenders[0].packet.admission = 1,
            |s| s.contenders[3].packet.admission = 1,
        ],
    );
    breaks(
        &later(),
        &[
            |s| s.packets[19].admission = 1,
            |s| s.packets[0].admission = 70_000,
            |s| s.packets[1_023].admission = 1,
            |s| s.contenders[1].packet.admission = 70_000,
        ],
    );
}

/// "bits at N and above are clear", none is set between contentions, and a station without its bit has
/// no parameter and no packet.
#[test]
fn bits_of_contenders() {
    breaks(
        &in_parameter_phase(),
        &[
            |s| s.contenders[63].contends = true,
            |s| s.contenders[3..].iter_mut().for_each(|c| c.contends = true),
            |s| s.contenders.iter_mut().for_each(|c| c.contends = true),
            |s| s.contenders.iter_mut().for_each(|c| c.contends = false),
            |s| s.contenders[2].contends = false,
            |s| s.contenders[0].packet.number = 1,
            |s| s.contenders[0].packet.value = 1,
            |s| s.contenders[0].packet.length = 1,
            |s| s.contenders.rotate_right(1),
            |s| s.contenders.reverse(),
        ],
    );
    breaks(
        &between(),
        &[
            |s| s.contenders[0].contends = true,
            |s| s.contenders[2].contends = true,
            |s| s.contenders[..3].iter_mut().for_each(|c| c.contends = true),
        ],
    );
    keeps(
        &in_parameter_phase(),
        &[
            |s| s.contenders[1] = s.contenders[0],
            |s| s.contenders[2] = s.contenders[0],
        ],
    );
}

#[test]
fn what_is_not_named_is_accepted() {
    keeps(
        &in_tie_phase(),
        &[
            |s| s.contenders = fresh(0, 2, 2, 1, &[(0, 0)]).contenders,
            |s| {
                s.contenders[1].packet = s.packets[17];
                s.contenders[1].parameter = 3;
            },
            |s| {
                s.packets[17].admission = 4;
                s.packets[18].admission = 3;
            },
            |s| {
                s.contenders[1].packet.admission = 4;
                s.packets[16].admission = 4;
            },
        ],
    );
}
