//! Tables of lent states: those of scripts/lent.table, and states that stand with every field at its edges and bits.

use super::lent::{bits, places, states, Lent, Phase, State, DISCIPLINE, LAST_FIELD};
use super::table::{rows, Bases, LENT};
use super::text::Script;
use crate::case::{Case, Shows};
use crate::records::{QUEUE_PLACES, STATIONS};
use crate::seeded::Numbers;

/// Each state of the table.
pub fn listed() -> Vec<Case> {
    let bases = Bases::read();
    let case = |parts: Vec<&str>| {
        let (stands, name, base, edits) = match parts[..] {
            ["stands", name, base, edits] => (true, name, base, edits),
            [name, base, edits] => (false, name, base, edits),
            _ => panic!("scripts/lent.table has a line that cannot be read: {parts:?}"),
        };
        let (admission, calls) = bases.of(base);
        lent(name, &format!("{calls} T {edits}"), admission, stands)
    };
    rows(LENT).map(case).collect()
}

/// A state after some calls and edits: one that stands is played, by steps and once more by a begin and a probe first; any
/// other is refused by each call.
fn lent(name: &str, made: &str, admission: &str, stands: bool) -> Case {
    let address = admission.split(' ').next().and_then(|word| word.parse().ok()).expect("an address comes first");
    let steps = format!("S R 1 1 1 0 {admission} T");
    let (text, shows) = if stands {
        let played = format!("{made} T P A {admission} {steps} {made} A {admission} B P O {steps}");
        (played, Shows::AllStand)
    } else {
        (format!("{made} P A {admission} B O {steps}"), Shows::Broken(address))
    };
    Case::new(name, text, vec![shows])
}

/// Every field of a state in each discipline and phase with each of its values; and the last of each field, with a few
/// values, of states with 64 stations and full queues, on which calls follow.
pub fn swept() -> Vec<Case> {
    states().into_iter().enumerate().flat_map(|(at, state)| swept_of(state, Numbers::of(2, at as u64))).collect()
}

/// With each value goes the call that leaves every state as it is: a probe between contentions, a begin in one.
fn swept_of(state: State, mut numbers: Numbers) -> Vec<Case> {
    let few = Lent::made(&mut numbers, state, 3, 100, &[1, 2, 3]);
    let full = Lent::made(&mut numbers, state, STATIONS as u64, 100, &[QUEUE_PLACES as u64]);
    let (asked, number) = if state.1 == Phase::Between { ("T O", 26) } else { ("T B", 25) };
    let shows = vec![Shows::Stands, Shows::Refused(number)];
    let case = |name: String, text| Case::new(format!("{name} of {state:?}"), text, shows.clone());
    let each = |field| case(format!("field {field}"), each_value(&few, field, asked));
    let last = case("full queues".to_string(), last_of_each(&full, asked));
    (DISCIPLINE..=LAST_FIELD).map(each).chain([last]).collect()
}

/// A state, and whether it stands with each value of a field.
fn each_value(lent: &Lent, field: u64, asked: &str) -> String {
    let mut script = begun(lent, asked);
    for place in lent.spots(field) {
        tried(&mut script, lent, (field, place), asked, lent.tried(field, place));
    }
    script.text
}

/// A state, and whether it stands with the last of each field one higher, one lower, 0 or with its top bit turned; calls.
fn last_of_each(lent: &Lent, asked: &str) -> String {
    let mut script = begun(lent, asked);
    for field in DISCIPLINE..=LAST_FIELD {
        let place = places(field) - 1;
        let now = lent.get(field, place);
        let values = [now.wrapping_add(1), now.wrapping_sub(1), 0, now ^ (1 << (bits(field) - 1))];
        tried(&mut script, lent, (field, place), asked, values);
    }
    script.put("S S S P B O R 60 0 0 T");
    script.text
}

/// A script that makes a state and asks whether it stands.
fn begun(lent: &Lent, asked: &str) -> Script {
    let mut script = Script::default();
    lent.write(&mut script);
    script.put(asked);
    script
}

/// Asks with each value of a field, which then is what it was.
fn tried(script: &mut Script, lent: &Lent, at: (u64, usize), asked: &str, values: impl IntoIterator<Item = u64>) {
    let (field, place) = at;
    values.into_iter().for_each(|value| script.put(format_args!("E {field} {place} {value} {asked}")));
    script.edit(field, place, lent.get(field, place));
}
