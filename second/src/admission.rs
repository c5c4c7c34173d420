//! Admission: one packet into its station's queue, refusals 1 and 11 to 16.

use crate::refusal::Refusal;
use crate::standing::stands;
use crate::state::{
    Packet, Settings, State, LAST_SLOT, LONGEST, MOST_ADMITTED, MOST_TURNED_AWAY, PRI,
    QUEUE_PLACES, RTDG,
};

/// Admits a packet into any lent state; the packet's number is the answer.
pub fn admit(state: &mut State, address: u32, value: u32, length: u32) -> Result<u32, Refusal> {
    if !stands(state) {
        return Err(Refusal::LentState);
    }
    admit_standing(state, address, value, length)
}

/// Admits into a state that stands: "Admission tries 1, then 11 to 16".
pub(crate) fn admit_standing(
    state: &mut State,
    address: u32,
    value: u32,
    length: u32,
) -> Result<u32, Refusal> {
    let Some(place) = station_with(state, address) else {
        return Err(Refusal::NoStation);
    };
    if !value_in_range(&state.settings, value) {
        return Err(Refusal::Value);
    }
    if !length_in_range(length) {
        return Err(Refusal::Length);
    }
    if state.settings.discipline == RTDG && value < state.clock {
        return Err(turn_away(state, Refusal::LatestStart));
    }
    if state.queue_length(place) == QUEUE_PLACES {
        return Err(turn_away(state, Refusal::QueueFilled));
    }
    if state.admitted >= MOST_ADMITTED {
        return Err(Refusal::AdmittedSpent);
    }
    Ok(join_queue(state, place, value, length))
}

fn station_with(state: &State, address: u32) -> Option<usize> {
    state.stations[..state.listed()]
        .iter()
        .position(|station| station.address == address)
}

/// PRI "a priority 0 to D - 1", RTDG "0 to 1,073,741,824", RTVC "0".
pub(crate) fn value_in_range(settings: &Settings, value: u32) -> bool {
    match settings.discipline {
        PRI => value < settings.d,
        RTDG => value <= LAST_SLOT,
        _ => value == 0,
    }
}

/// "1 to 4,096 slots".
pub(crate) fn length_in_range(length: u32) -> bool {
    (1..=LONGEST).contains(&length)
}

/// "raised by exactly the admissions refused with 14 or 15"; "The count stops at 4,294,967,295."
fn turn_away(state: &mut State, refusal: Refusal) -> Refusal {
    if state.turned_away < MOST_TURNED_AWAY {
        state.turned_away += 1;
    }
    refusal
}

/// "An accepted packet is numbered 1, 2, 3 and so on", and keeps "its admission slot".
fn join_queue(state: &mut State, place: usize, value: u32, length: u32) -> u32 {
    let end = state.queue_length(place);
    state.admitted += 1;
    // 32 bits hold it: no more than 4,294,967,295 are admitted.
    let number = state.admitted as u32;
    let admission = state.clock;
    state.places_mut(place)[end] = Packet {
        number,
        value,
        length,
        admission,
    };
    state.waiting[place] += 1;
    number
}
