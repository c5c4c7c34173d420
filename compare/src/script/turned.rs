//! Tables of packets turned away: admissions that are refused, by each number, in each discipline and phase, where so many were
//! turned away before; as calls and in a stretch.

use super::calls::{raised, LAST};
use super::lent::{states, Lent, State, ADDRESS, ADMITTED, CLOCK, DISCIPLINE, LOST, PARAMETERS, SENT, TURNED_AWAY};
use super::text::{words, Admission, Script};
use crate::case::{refused, Case, Shows};
use crate::records::{LAST_NUMBER, MOST_TURNED_AWAY, QUEUE_PLACES, RTDG};
use crate::seeded::Numbers;

/// Counts of packets turned away: few, at the ends of a byte and of two, about the last that may be, and above it.
const COUNTS: &[u64] = &[
    0,
    5,
    255,
    65_535,
    MOST_TURNED_AWAY / 2,
    MOST_TURNED_AWAY - 1,
    MOST_TURNED_AWAY,
    MOST_TURNED_AWAY + 1,
    MOST_TURNED_AWAY + 6,
    1 << 63,
    u64::MAX,
];

/// Each refusal in each state, where so many were turned away before.
pub fn refusals() -> Vec<Case> {
    asked().iter().map(Asked::by_calls).collect()
}

/// The same in a stretch.
pub fn stretches() -> Vec<Case> {
    asked().iter().map(Asked::in_stretches).collect()
}

/// A state, and an admission that is refused in it with a number.
struct Asked {
    state: State,
    lent: Lent,
    number: u8,
    admission: Admission,
}

/// Each number in each state; 14 is of RTDG alone. For 15 all queues are full, and for 16 the numbers of packets are spent.
fn asked() -> Vec<Asked> {
    let each = states().into_iter().flat_map(|state| (11..=16).map(move |number| (state, number)));
    let given = each.filter(|(state, number)| *number != 14 || state.0 == RTDG);
    (0..).zip(given).map(|(at, (state, number))| Asked::made(&mut Numbers::of(4, at), state, number)).collect()
}

impl Asked {
    fn made(numbers: &mut Numbers, state: State, number: u8) -> Asked {
        let lengths: &[u64] = if number == 15 { &[QUEUE_PLACES as u64] } else { &[1, 2, 3] };
        let lent = Lent::made(numbers, state, 3, 100, lengths);
        let admission = refused_with(&lent, number);
        Asked { state, lent, number, admission }
    }

    /// Makes the state.
    fn write(&self, script: &mut Script) {
        self.lent.write(script);
        if self.number == 16 {
            let [_, admitted, sent, ..] = self.counts();
            script.edit(ADMITTED, 0, admitted);
            script.edit(SENT, 0, sent);
        }
    }

    /// Its clock, and the packets admitted, sent, lost and waiting.
    fn counts(&self) -> [u64; 5] {
        let [clock, admitted, sent, lost] = [CLOCK, ADMITTED, SENT, LOST].map(|field| self.lent.one(field));
        let spent = if self.number == 16 { LAST_NUMBER - admitted } else { 0 };
        [clock, admitted + spent, sent + spent, lost, admitted - sent - lost]
    }

    /// What the admission answers, and the closing numbers where so many were turned away.
    fn answers(&self, count: u64) -> [String; 2] {
        let number = if count > MOST_TURNED_AWAY { 1 } else { self.number };
        let closing = if number == 1 { refused('T', 1) } else { format!("T 0 {} {count}", words(&self.counts())) };
        [refused('A', number), closing]
    }

    /// A state is written as it has to be after the admission, and is so then.
    fn by_calls(&self) -> Case {
        let mut script = Script::default();
        self.write(&mut script);
        let (mut lines, mut before) = (vec!["U 0 0".to_string()], None);
        for count in COUNTS {
            let after = raised(*count, 1, Some(self.number));
            let state = if before.replace(after) == Some(after) { "same" } else { "state" };
            script.edit(TURNED_AWAY, 0, after);
            script.put(format_args!("P E {TURNED_AWAY} 0 {count} A {} T P", words(&self.admission)));
            lines.push(state.to_string());
            lines.extend(self.answers(after));
            lines.push("same".to_string());
        }
        lines.push("same".to_string());
        Case::new(self.name(), script.text, vec![Shows::Writes(lines)])
    }

    /// Three admissions and a step, and a stretch of them, lead to one state.
    fn in_stretches(&self) -> Case {
        let (mut script, mut answers, mut same) = (Script::default(), Vec::new(), Vec::new());
        let [address, value, length] = self.admission;
        let made = |script: &mut Script, count| {
            self.write(script);
            script.edit(TURNED_AWAY, 0, count);
        };
        for count in [0, MOST_TURNED_AWAY - 1, MOST_TURNED_AWAY + 1] {
            made(&mut script, count);
            (0..3).for_each(|_| script.admit(&self.admission));
            script.put("T S P");
            made(&mut script, count);
            script.stretch(1, 3, &[[self.lent.one(CLOCK), address, value, length]; 3]);
            script.put("P");
            let [admission, closing] = self.answers(raised(count, 3, Some(self.number))).map(Some);
            let set_up = Some("U 0 0".to_string());
            answers.push(set_up.clone());
            answers.extend(vec![admission; 3]);
            answers.extend([closing, None, set_up, Some("R 4 3 0".to_string())]);
            same.extend([false, true]);
        }
        same.push(true);
        Case::new(self.name(), script.text, vec![Shows::Answers(answers), Shows::Same(same)])
    }

    fn name(&self) -> String {
        format!("{} in {:?}", self.number, self.state)
    }
}

/// An admission that a state refuses with a number, 15 and 16 being for the state to give.
fn refused_with(lent: &Lent, number: u8) -> Admission {
    let (address, clock) = (lent.get(ADDRESS, 0), lent.one(CLOCK));
    let [good, too_high] = [[0, lent.one(PARAMETERS)], [clock, LAST + 1], [0, 1]][lent.one(DISCIPLINE) as usize];
    match number {
        11 => [address + 65_536, good, 1],
        12 => [address, too_high, 1],
        13 => [address, good, 0],
        14 => [address, clock - 1, 1],
        _ => [address, good, 1],
    }
}
