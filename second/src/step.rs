//! Beginning a contention, probing one slot, and the step that is made of the two; refusals 1, 17, 25
//! and 26.

use crate::refusal::Refusal;
use crate::standing::stands;
use crate::state::{
    Contender, Contention, Packet, Side, State, Window, PRI, QUEUE_PLACES, RTDG, RTVC,
};

/// "step with the clock above 1,073,737,728" is refused, and so is a probe.
pub const LAST_STEP_SLOT: u32 = 1_073_737_728;

#[derive(Clone, Copy, Debug, PartialEq, Eq)]
pub enum Event {
    Idle,
    Collision,
    Success {
        address: u32,
        number: u32,
        length: u32,
        /// The slots from the packet's admission slot to this probe.
        wait: u32,
    },
}

/// What one contender has in a contention that begins.
#[derive(Clone, Copy, Debug, PartialEq, Eq)]
pub struct Offer {
    /// The station's place in the listed order.
    pub place: usize,
    pub address: u32,
    /// Its packet's number.
    pub number: u32,
    pub parameter: u64,
}

/// A begin's answer: the drops, the slot, the first window, and "who contends".
#[derive(Clone, Debug, PartialEq, Eq)]
pub struct Beginning {
    pub drops: u64,
    pub slot: u32,
    pub start: u64,
    pub size: u64,
    /// The word of contenders.
    pub contenders: u64,
    /// Of each contender, in listed order.
    pub offers: Vec<Offer>,
}

/// A step's answer: the drops, the slot probed, the phase, the window probed, the event and the end. A
/// probe's answer is the same, with the drops 0.
#[derive(Clone, Copy, Debug, PartialEq, Eq)]
pub struct Answer {
    pub drops: u64,
    pub slot: u32,
    /// Whether the phase is the tie phase.
    pub tied: bool,
    pub start: u64,
    pub size: u64,
    pub event: Event,
    /// Whether the contention ended.
    pub ended: bool,
}

/// "beginning a contention (drops, offers, parameters, first window)", on any lent state: tries 1, then
/// "25, begin while one is under way".
pub fn begin(state: &mut State) -> Result<Beginning, Refusal> {
    if !stands(state) {
        return Err(Refusal::LentState);
    }
    if state.contention.begun {
        return Err(Refusal::ContentionUnderWay);
    }
    let drops = begin_contention(state);
    Ok(beginning(state, drops))
}

/// "probing one slot", on any lent state: tries 1, then "26, probe while none is", and "26 before 17,
/// which belongs to the probe".
pub fn probe(state: &mut State) -> Result<Answer, Refusal> {
    if !stands(state) {
        return Err(Refusal::LentState);
    }
    if !state.contention.begun {
        return Err(Refusal::NoContention);
    }
    if state.clock > LAST_STEP_SLOT {
        return Err(Refusal::ClockSpent);
    }
    Ok(probe_slot(state, 0))
}

/// One step on any lent state.
pub fn step(state: &mut State) -> Result<Answer, Refusal> {
    if !stands(state) {
        return Err(Refusal::LentState);
    }
    step_standing(state)
}

/// One step on a state that stands: "a step tries 1, then 17", before it begins anything; its answer is
/// the probe's with the drops of the beginning.
pub(crate) fn step_standing(state: &mut State) -> Result<Answer, Refusal> {
    if state.clock > LAST_STEP_SLOT {
        return Err(Refusal::ClockSpent);
    }
    let drops = if state.contention.begun {
        0
    } else {
        begin_contention(state)
    };
    Ok(probe_slot(state, drops))
}

/// "a step first begins one at the present slot T"; hands back the drops.
fn begin_contention(state: &mut State) -> u64 {
    let drops = if state.settings.discipline == RTDG {
        drop_late(state)
    } else {
        0
    };
    for place in 0..state.listed() {
        state.contenders[place] = offer(state, place);
    }
    state.contention = Contention {
        begun: true,
        window: Window::first_of(state.settings.d),
        tied: false,
        tie: 0,
    };
    drops
}

/// "who contends and what was dropped before the first slot is spent", of a contention just begun.
fn beginning(state: &State, drops: u64) -> Beginning {
    let window = &state.contention.window;
    Beginning {
        drops,
        slot: state.clock,
        start: window.start,
        size: window.size,
        contenders: contending(state).fold(0, |word, place| word | bit(place)),
        offers: contending(state)
            .map(|place| offered(state, place))
            .collect(),
    }
}

/// The places of those who contend, "in rising order".
fn contending(state: &State) -> impl Iterator<Item = usize> + '_ {
    (0..state.listed()).filter(|&place| state.contenders[place].contends)
}

/// "station i in listed order at bit i".
fn bit(place: usize) -> u64 {
    1 << place
}

/// "its place, its address, its packet's number and its parameter".
fn offered(state: &State, place: usize) -> Offer {
    let contender = &state.contenders[place];
    Offer {
        place,
        address: state.stations[place].address,
        number: contender.packet.number,
        parameter: contender.parameter,
    }
}

/// "every queued packet with latest start below T is dropped and counted lost".
fn drop_late(state: &mut State) -> u64 {
    let drops = (0..state.listed())
        .map(|place| drop_late_of(state, place))
        .sum();
    state.lost += drops;
    drops
}

/// Keeps the packets of one queue that may still start, in their order.
fn drop_late_of(state: &mut State, place: usize) -> u64 {
    let slot = state.clock;
    let waiting = state.queue_length(place);
    let queue = &mut state.places_mut(place)[..waiting];
    let mut kept = 0;
    for from in 0..waiting {
        if queue[from].value >= slot {
            queue[kept] = queue[from];
            kept += 1;
        }
    }
    queue[kept..].fill(Packet::ZERO);
    state.waiting[place] = kept as u64;
    (waiting - kept) as u64
}

/// The record of one station for a contention that begins now; zero if it has nothing or sits out.
fn offer(state: &State, place: usize) -> Contender {
    let queue = state.queue(place);
    // Numbers rise along a queue, so the first of equals has the lowest packet number.
    let offered = match state.settings.discipline {
        PRI | RTDG => queue.iter().min_by_key(|packet| packet.value),
        _ => queue.first(),
    };
    let record = offered.and_then(|packet| {
        parameter(state, place, packet).map(|parameter| Contender {
            contends: true,
            parameter,
            packet: *packet,
        })
    });
    record.unwrap_or(Contender::ZERO)
}

/// "The parameter is fixed for the whole contention"; none for a circuit that sits out.
fn parameter(state: &State, place: usize, packet: &Packet) -> Option<u64> {
    match state.settings.discipline {
        PRI => Some(u64::from(packet.value)),
        RTDG => Some(level(state, packet)),
        _ => {
            let capability = state.stations[place].capability;
            (!state.won || capability > state.last).then_some(u64::from(capability))
        }
    }
}

/// "(latest start - T) divided by q, rounded down, and D - 1 where that is larger".
fn level(state: &State, packet: &Packet) -> u64 {
    let laxity = packet.value.saturating_sub(state.clock);
    let top = state.settings.d.saturating_sub(1);
    u64::from(laxity.checked_div(state.settings.q).unwrap_or(top).min(top))
}

/// "Every step then probes one slot."
fn probe_slot(state: &mut State, drops: u64) -> Answer {
    let probed = state.contention;
    let slot = state.clock;
    let mut transmitting = (0..state.listed()).filter(|&place| transmits(state, place));
    let event = match (transmitting.next(), transmitting.next()) {
        (Some(place), None) => success(state, place),
        (Some(_), Some(_)) => collision(state),
        _ => idle(state),
    };
    Answer {
        drops,
        slot,
        tied: probed.tied,
        start: probed.window.start,
        size: probed.window.size,
        event,
        ended: !state.contention.begun,
    }
}

/// "its parameter (in the tie phase: its address) lies in the window and, in RTDG, its latest start is
/// not below the slot being probed".
fn transmits(state: &State, place: usize) -> bool {
    let contender = &state.contenders[place];
    contender.contends
        && in_window(state, place, contender)
        && (state.settings.discipline != RTDG || contender.packet.value >= state.clock)
}

/// The tie phase is "among the contenders of that parameter".
fn in_window(state: &State, place: usize, contender: &Contender) -> bool {
    let Contention {
        window, tied, tie, ..
    } = &state.contention;
    if *tied {
        contender.parameter == *tie && window.holds(u64::from(state.stations[place].address))
    } else {
        window.holds(contender.parameter)
    }
}

/// "That packet leaves its queue and is counted sent ... the clock moves on by its length."
fn success(state: &mut State, place: usize) -> Event {
    let packet = state.contenders[place].packet;
    let wait = waited(&packet, state.clock);
    leave_queue(state, place, packet.number);
    state.sent += 1;
    state.clock += packet.length;
    if state.settings.discipline == RTVC {
        state.won = true;
        state.last = state.stations[place].capability;
    }
    end_contention(state);
    Event::Success {
        address: state.stations[place].address,
        number: packet.number,
        length: packet.length,
        wait,
    }
}

/// "the number of slots from there to the probe that won"; no admission slot is above the clock.
fn waited(packet: &Packet, probed: u32) -> u32 {
    probed - packet.admission
}

/// Takes one packet out of a queue; the later ones close up.
fn leave_queue(state: &mut State, place: usize, number: u32) {
    let Some(at) = state.queue(place).iter().position(|p| p.number == number) else {
        return;
    };
    let places = state.places_mut(place);
    places.copy_within(at + 1.., at);
    places[QUEUE_PLACES - 1] = Packet::ZERO;
    state.waiting[place] -= 1;
}

/// "A window of size 2 or more becomes its left half ... A window of size 1 starts the tie phase".
fn collision(state: &mut State) -> Event {
    state.clock += 1;
    let contention = &mut state.contention;
    let window = &mut contention.window;
    if window.size >= 2 {
        window.size /= 2;
        window.side = Side::Left;
    } else {
        contention.tied = true;
        contention.tie = window.start;
        *window = Window::first_of(state.settings.a);
    }
    Event::Collision
}

/// "Side left: the window moves right by its size, side right. Side right: the contention ends".
fn idle(state: &mut State) -> Event {
    state.clock += 1;
    let window = &mut state.contention.window;
    if window.side == Side::Left {
        window.start += window.size;
        window.side = Side::Right;
    } else {
        // "An RTVC contention without a winner ends the round: no last winner."
        state.won = false;
        state.last = 0;
        end_contention(state);
    }
    Event::Idle
}

/// "the window and contenders between contentions" are zero.
fn end_contention(state: &mut State) {
    let listed = state.listed();
    state.contenders[..listed].fill(Contender::ZERO);
    state.contention = Contention::ZERO;
}
