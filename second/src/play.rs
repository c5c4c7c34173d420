//! Plays a scenario, and tells of its refused arrivals and its answers as they come.

use crate::admission::admit_standing;
use crate::refusal::Refusal;
use crate::scenario::{Arrival, Scenario};
use crate::state::State;
use crate::step::{step_standing, Answer};
use crate::totals::{totals_standing, Totals};

/// What is told of a scenario as it is played.
pub(crate) enum Told<'a> {
    /// An arrival that was refused, and the clock.
    Refused {
        clock: u32,
        arrival: &'a Arrival,
        refusal: Refusal,
    },
    Answered(&'a Answer),
}

/// Plays a scenario's steps and hands back the closing totals; its state comes from a set-up, so it
/// stands throughout.
pub(crate) fn play(scenario: Scenario, mut tell: impl FnMut(Told)) -> Totals {
    let Scenario {
        mut state,
        arrivals,
        steps,
    } = scenario;
    let mut ahead = arrivals.as_slice();
    for _ in 0..steps {
        ahead = admit_due(&mut state, ahead, &mut tell);
        let Ok(answer) = &step_standing(&mut state) else {
            break;
        };
        tell(Told::Answered(answer));
    }
    totals_standing(&state)
}

/// "admits, in file order, the arrivals whose time is not above the clock"; hands back the others.
fn admit_due<'a>(
    state: &mut State,
    ahead: &'a [Arrival],
    tell: &mut impl FnMut(Told),
) -> &'a [Arrival] {
    let due = ahead
        .iter()
        .take_while(|arrival| arrival.time <= state.clock)
        .count();
    let (due, later) = ahead.split_at(due);
    for arrival in due {
        admit_arrival(state, arrival, tell);
    }
    later
}

fn admit_arrival(state: &mut State, arrival: &Arrival, tell: &mut impl FnMut(Told)) {
    let admitted = admit_standing(state, arrival.address, arrival.value, arrival.length);
    if let Err(refusal) = admitted {
        tell(Told::Refused {
            clock: state.clock,
            arrival,
            refusal,
        });
    }
}
