//! The closing totals of a state: clock, admitted, sent, lost, waiting and turned away.

use crate::refusal::Refusal;
use crate::standing::stands;
use crate::state::State;

#[derive(Clone, Copy, Debug, PartialEq, Eq)]
pub struct Totals {
    pub clock: u32,
    pub admitted: u64,
    pub sent: u64,
    pub lost: u64,
    pub waiting: u64,
    pub turned_away: u64,
}

/// The totals of any lent state; one that does not stand is refused.
pub fn totals(state: &State) -> Result<Totals, Refusal> {
    if !stands(state) {
        return Err(Refusal::LentState);
    }
    Ok(totals_standing(state))
}

/// "waiting is the number of packets in the queues".
pub(crate) fn totals_standing(state: &State) -> Totals {
    Totals {
        clock: state.clock,
        admitted: state.admitted,
        sent: state.sent,
        lost: state.lost,
        waiting: (0..state.listed())
            .map(|place| state.queue_length(place) as u64)
            .sum(),
        turned_away: state.turned_away,
    }
}
