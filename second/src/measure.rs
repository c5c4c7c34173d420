//! Plays a scenario and measures its run.

use crate::play::{play, Told};
use crate::scenario::{read, Refused};
use crate::sheet::Run;
use crate::step::Event;

/// The finished run of an input, or its refusal and offset.
pub fn measure(input: &[u8]) -> Result<Run, Refused> {
    let scenario = read(input)?;
    let mut longest_wait = 0;
    let totals = play(scenario, |told| {
        if let Some(wait) = wait_of(&told) {
            longest_wait = longest_wait.max(wait);
        }
    });
    // 32 bits hold each: no more than 4,294,967,295 are admitted, nor are more counted as turned away.
    Ok(Run {
        admitted: totals.admitted as u32,
        sent: totals.sent as u32,
        lost: totals.lost as u32,
        waiting: totals.waiting as u32,
        turned_away: totals.turned_away as u32,
        longest_wait,
    })
}

/// "number of slots from a packet's admission to the slot in which it won", of a success.
fn wait_of(told: &Told) -> Option<u32> {
    match told {
        Told::Answered(answer) => match answer.event {
            Event::Success { wait, .. } => Some(wait),
            _ => None,
        },
        Told::Refused { .. } => None,
    }
}

#[cfg(test)]
mod tests {
    use super::measure;
    use crate::refusal::Refusal;
    use crate::scenario::Refused;
    use crate::sheet::tests::run;

    const WORKED: &[u8] = include_bytes!("../../examples/worked.scenario");
    const RTDG: &[u8] = include_bytes!("../../examples/rtdg.scenario");
    const TURNED_AWAY: &[u8] = include_bytes!("../../examples/turned-away.scenario");
    const CUT: &[u8] = include_bytes!("../../examples/cut.scenario");

    /// One PRI station: its arrivals, by time, priority and length, and the steps.
    fn one_station(arrivals: &[(u8, u8, u8)], steps: u8) -> Vec<u8> {
        let mut input = vec![14, 0, 1, 0, 0, 4, 0, 0, 0, 8, 0, 0, 0, 1, 0, 1];
        input.extend([6, 0, 2, 0, 1, 0, 0, 0]);
        for &(time, value, length) in arrivals {
            input.extend([14, 0, 3, 0, time, 0, 0, 0, 1, 0, value, 0, 0, 0, length, 0]);
        }
        input.extend([4, 0, 4, 0, steps, 0]);
        input
    }

    #[test]
    fn the_counts_and_the_wait_are_those_of_the_listing() {
        assert_eq!(measure(WORKED), Ok(run([3, 3, 0, 0, 0], 14)));
        assert_eq!(measure(RTDG), Ok(run([6, 3, 3, 0, 1], 23)));
        assert_eq!(measure(TURNED_AWAY), Ok(run([19, 2, 1, 16, 2], 2)));
    }

    #[test]
    fn the_seventeenth_of_a_crowd_and_those_after_it_are_turned_away() {
        let crowd = one_station(&[(0, 0, 1); 20], 1);
        assert_eq!(measure(&crowd), Ok(run([16, 1, 0, 15, 4], 0)));
        let crowd = one_station(&[(0, 0, 1); 316], 1);
        assert_eq!(measure(&crowd), Ok(run([16, 1, 0, 15, 300], 0)));
        let faulty = one_station(&[(0, 4, 1), (0, 0, 0)], 1);
        assert_eq!(measure(&faulty), Ok(run([0, 0, 0, 0, 0], 0)));
    }

    #[test]
    fn the_longest_wait_is_over_all_successes() {
        let first = one_station(&[(0, 0, 10), (0, 1, 1), (10, 2, 1)], 3);
        assert_eq!(measure(&first), Ok(run([3, 3, 0, 0, 0], 10)));
        let middle = one_station(&[(0, 0, 10), (0, 1, 1), (20, 2, 1)], 12);
        assert_eq!(measure(&middle), Ok(run([3, 3, 0, 0, 0], 10)));
    }

    #[test]
    fn without_a_success_the_wait_is_0() {
        assert_eq!(measure(&one_station(&[], 3)), Ok(run([0, 0, 0, 0, 0], 0)));
        let late = one_station(&[(3, 0, 1)], 3);
        assert_eq!(measure(&late), Ok(run([0, 0, 0, 0, 0], 0)));
        let unstepped = one_station(&[(0, 0, 1)], 0);
        assert_eq!(measure(&unstepped), Ok(run([0, 0, 0, 0, 0], 0)));
    }

    #[test]
    fn a_refused_scenario_has_its_number_and_offset() {
        let refused = |refusal, offset| Err(Refused { refusal, offset });
        assert_eq!(measure(CUT), refused(Refusal::ScenarioEnds, 24));
        assert_eq!(measure(&[]), refused(Refusal::ScenarioEnds, 0));
        let long = vec![0; 65_537];
        assert_eq!(measure(&long), refused(Refusal::ScenarioTooLong, 0));
    }
}
