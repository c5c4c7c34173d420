//! The standing conditions: whether a lent state is one that calls may work on.

use crate::admission::{length_in_range, value_in_range};
use crate::set_up::{check_settings, check_stations};
use crate::state::{
    first_window, Contender, Contention, Packet, Side, State, Station, Window, LAST_SLOT,
    MOST_ADMITTED, MOST_TURNED_AWAY, PLACES, PRI, QUEUE_PLACES, RTVC, STATIONS,
};

/// Whether a state of any content meets every standing condition.
pub fn stands(state: &State) -> bool {
    set_up_stands(state)
        && counts_stand(state)
        && queues_stand(state)
        && none_twice(state)
        && round_stands(state)
        && contention_stands(state)
        && contenders_stand(state)
        && past_listed_zero(state)
}

/// "set-up fields and stations pass 2 to 10".
fn set_up_stands(state: &State) -> bool {
    check_settings(&state.settings).is_ok()
        && check_stations(&state.settings, &state.stations[..state.listed()]).is_ok()
}

/// "clock and admitted count within range; admitted = sent + lost + waiting", and the count of packets
/// turned away not above where it stops.
fn counts_stand(state: &State) -> bool {
    let waiting: u128 = state.waiting.iter().map(|&length| u128::from(length)).sum();
    state.clock <= LAST_SLOT
        && state.admitted <= MOST_ADMITTED
        && state.turned_away <= MOST_TURNED_AWAY
        && u128::from(state.admitted) == u128::from(state.sent) + u128::from(state.lost) + waiting
}

/// The conditions on each listed station's queue by itself.
fn queues_stand(state: &State) -> bool {
    (0..state.listed()).all(|place| queue_stands(state, place))
}

/// "at most 16 packets, numbers ... rising", each packet by itself, and zero "past a queue's end".
fn queue_stands(state: &State, place: usize) -> bool {
    if state.waiting[place] > QUEUE_PLACES as u64 {
        return false;
    }
    let (queue, past_end) = state.places(place).split_at(state.queue_length(place));
    queue.iter().all(|packet| packet_stands(state, packet))
        && queue.windows(2).all(|pair| pair[0].number < pair[1].number)
        && past_end.iter().all(|packet| *packet == Packet::ZERO)
}

/// "numbers from 1 to the admitted count", "values and lengths in range", "admission slot not above the
/// clock".
fn packet_stands(state: &State, packet: &Packet) -> bool {
    (1..=state.admitted).contains(&u64::from(packet.number))
        && value_in_range(&state.settings, packet.value)
        && length_in_range(packet.length)
        && packet.admission <= state.clock
}

/// "none twice over all queues", for queues that stand by themselves.
fn none_twice(state: &State) -> bool {
    let mut numbers = [0u32; PLACES];
    let mut taken = 0;
    for place in 0..state.listed() {
        for packet in state.queue(place) {
            numbers[taken] = packet.number;
            taken += 1;
        }
    }
    let numbers = &mut numbers[..taken];
    numbers.sort_unstable();
    numbers.windows(2).all(|pair| pair[0] != pair[1])
}

/// "a last winner only in RTVC and some station's capability", zero "where there is none".
fn round_stands(state: &State) -> bool {
    if !state.won {
        return state.last == 0;
    }
    state.settings.discipline == RTVC
        && state.stations[..state.listed()]
            .iter()
            .any(|station| station.capability == state.last)
}

/// The conditions on the window and the tie value, during a contention and between contentions.
fn contention_stands(state: &State) -> bool {
    let contention = &state.contention;
    if !contention.begun {
        return *contention == Contention::ZERO;
    }
    let space = if contention.tied {
        state.settings.a
    } else {
        state.settings.d
    };
    window_stands(&contention.window, first_window(space))
        && contention.tie < u64::from(state.settings.d)
        && (contention.tied || contention.tie == 0)
}

/// "size is a power of two, no larger than the first window, starting inside it at a multiple of the size".
fn window_stands(window: &Window, first: u64) -> bool {
    window.size.is_power_of_two()
        && window.size <= first
        && window.start < first
        && window.start.is_multiple_of(window.size)
        && window.side == side_of(window, first)
}

/// "side right for the first window itself, otherwise left at an even multiple and right at an odd one".
fn side_of(window: &Window, first: u64) -> Side {
    if window.size == first || window.start / window.size % 2 == 1 {
        Side::Right
    } else {
        Side::Left
    }
}

/// The conditions on every listed station's record as a contender.
fn contenders_stand(state: &State) -> bool {
    (0..state.listed()).all(|place| contender_stands(state, place))
}

/// Who contends does so in a contention, with a packet that is wholly one of its queue; who does not has
/// no parameter and no packet.
fn contender_stands(state: &State, place: usize) -> bool {
    let contender = &state.contenders[place];
    if !contender.contends {
        return *contender == Contender::ZERO;
    }
    state.contention.begun
        && state.queue(place).contains(&contender.packet)
        && parameter_stands(state, contender, &state.stations[place])
}

/// "its parameter below D and in PRI and RTVC equal to priority or capability".
fn parameter_stands(state: &State, contender: &Contender, station: &Station) -> bool {
    contender.parameter < u64::from(state.settings.d)
        && match state.settings.discipline {
            PRI => contender.parameter == u64::from(contender.packet.value),
            RTVC => contender.parameter == u64::from(station.capability),
            _ => true,
        }
}

/// "stations past N" are zero: their listing, record as a contender, and queue.
fn past_listed_zero(state: &State) -> bool {
    (state.listed()..STATIONS).all(|place| {
        state.stations[place] == Station::ZERO
            && state.contenders[place] == Contender::ZERO
            && state.waiting[place] == 0
            && state.places(place).iter().all(|p| *p == Packet::ZERO)
    })
}
