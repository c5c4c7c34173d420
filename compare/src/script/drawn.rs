//! Seeded scripts, for what no table foresees. A class is a line; the classes go in rotation.

use super::lent::{Lent, CLOCK, DISCIPLINE, LAST_FIELD, PHASES, TURNED, TURNED_AWAY, WORD};
use super::text::{set_up_of, Admission, Script};
use crate::case::{Case, Shows};
use crate::records::{Scenario, LAST_NUMBER, LAST_SLOT, LAST_STEP};
use crate::scenario::{bus, value, LARGE, LAXITY_STEPS, SMALL};
use crate::seeded::Numbers;

/// A class: how many blocks a script of it has at most, each on a state of its own, what a block is, and what it shows.
struct Class(&'static str, u64, fn(&mut Numbers, &mut Script), &'static [Shows]);

const CLASSES: &[Class] =
    &[Class("played", 3, played, &[]), Class("lent", 4, lent, &[Shows::AllStand]), Class("edited", 3, edited, &[])];

/// The seeded script of a number.
pub fn drawn(seed: u64, number: usize) -> Case {
    let Class(name, most, block, shows) = &CLASSES[number % CLASSES.len()];
    let mut numbers = Numbers::of(seed, number as u64);
    let mut script = Script::default();
    for _ in 0..numbers.between((most.div_ceil(2), *most)) {
        block(&mut numbers, &mut script);
        script.put("P");
    }
    Case::new(*name, script.text, shows.to_vec())
}

/// The calls that take no numbers: a step, a begin or a probe, or a begin and a probe.
const CALLS: &[&str] = &["S", "S", "B", "O", "O", "B O"];

/// Admissions, most of which pass, calls, stretches, closing numbers and states; in one of three the count of packets turned
/// away does not begin at 0.
fn played(numbers: &mut Numbers, script: &mut Script) {
    let (discipline, wanted) = (numbers.below(3) as u8, numbers.between((1, 6)));
    let spaces = if numbers.once_in(4) { LARGE } else { SMALL };
    let scenario = bus(numbers, discipline, spaces, LAXITY_STEPS, wanted);
    let (fields, row) = set_up_of(&scenario);
    script.set_up(fields, row.len() as u64, row.len() as u64, &row);
    if numbers.once_in(3) {
        script.edit(TURNED_AWAY, 0, numbers.pick(TURNED));
    }
    for slot in 0..numbers.between((20, 80)) {
        match numbers.below(10) {
            0..=3 => script.admit(&admission(numbers, &scenario, slot)),
            4..=7 => script.put(numbers.pick(CALLS)),
            8 => stretch(numbers, script, slot, |numbers| admission(numbers, &scenario, slot)),
            _ => script.put(numbers.pick(&["T", "P"])),
        }
    }
}

/// An admission; one in eight may have a number that is refused.
fn admission(numbers: &mut Numbers, scenario: &Scenario, slot: u64) -> Admission {
    let station = scenario.stations[numbers.place(scenario.stations.len())];
    let address = u64::from(station.address);
    let value = u64::from(value(numbers, scenario, slot as u32));
    let length = numbers.pick(&[1, 1, 2, 3, 7]);
    match numbers.below(24) {
        0 => [address ^ numbers.pick(&[1, 0x0100, 0x1_0000]), value, length],
        1 => [address, numbers.pick(&[u64::MAX, u64::from(LAST_SLOT) + 1, 65_536, 0]), length],
        2 => [address, value, numbers.pick(&[0, 4_096, 4_097, 1 << 31])],
        _ => [address, value, length],
    }
}

/// A stretch of drawn admissions, due at once, about now or later, in a row as long as they are, shorter or longer; no steps,
/// some, or more than it has calls.
fn stretch(numbers: &mut Numbers, script: &mut Script, clock: u64, draw: impl Fn(&mut Numbers) -> Admission) {
    let many = numbers.pick(&[0, 0, 1, 2, 5, 20, 64, 66]);
    let (from, span) = (numbers.pick(&[0, clock]), numbers.pick(&[1, 10, 100]));
    let four = |[address, value, length]: Admission, numbers: &mut Numbers| {
        [from + numbers.below(span), address, value, length]
    };
    let fours: Vec<[u64; 4]> = (0..many).map(|_| four(draw(numbers), numbers)).collect();
    let odd = numbers.pick(&[many / 2, many + 1, 64, 65, u64::MAX]);
    let length = if numbers.once_in(4) { odd } else { many };
    let far = numbers.pick(&[512, 600, LAST_NUMBER]);
    let steps = if numbers.once_in(60) { far } else { numbers.pick(&[0, 1, 1, 2, 5, 20]) };
    script.stretch(steps, length, &fours);
}

/// A state of a drawn discipline and phase, mostly with few stations, and else with about half of them or all.
fn drawn_state(numbers: &mut Numbers, script: &mut Script) -> Lent {
    let (discipline, phase, far) = (numbers.below(3) as u8, numbers.pick(&PHASES), numbers.below(LAST_STEP.into()));
    let clock = numbers.pick(&[0, 1, 100, far, u64::from(LAST_STEP) - 5, LAST_STEP.into()]);
    let (stations, lengths): (&[u64], &[u64]) =
        if numbers.once_in(6) { (&[31, 32, 33, 63, 64], &[0, 1]) } else { (&[1, 2, 3, 3, 4, 6], &[0, 1, 1, 2, 3, 16]) };
    let stations = numbers.pick(stations);
    let lent = Lent::made(numbers, (discipline, phase), stations, clock, lengths);
    lent.write(script);
    lent
}

/// A lent state that stands, and play from there.
fn lent(numbers: &mut Numbers, script: &mut Script) {
    let lent = drawn_state(numbers, script);
    script.put("T");
    for _ in 0..numbers.between((6, 16)) {
        match numbers.below(8) {
            0..=1 => script.admit(&lent.admission(numbers)),
            2 => stretch(numbers, script, lent.one(CLOCK), |numbers| lent.admission(numbers)),
            _ => script.put(numbers.pick(CALLS)),
        }
    }
}

/// A lent state with one field after another edited, the word of contenders and the count of packets turned away more often than
/// others, an admission and one of the other calls on it, and the edit taken back.
fn edited(numbers: &mut Numbers, script: &mut Script) {
    let lent = drawn_state(numbers, script);
    for _ in 0..3 {
        let any = numbers.between((DISCIPLINE, LAST_FIELD));
        let field = numbers.pick(&[WORD, TURNED_AWAY, any, any, any, any, any, any]);
        let place = numbers.pick(&lent.spots(field));
        script.edit(field, place, lent.drawn(numbers, field, place));
        let admission = lent.admission(numbers);
        script.admit(&admission);
        script.put(format_args!("P {} P T", numbers.pick(CALLS)));
        if numbers.once_in(3) {
            stretch(numbers, script, 0, |_| admission);
            script.put("P");
        }
        script.edit(field, place, lent.get(field, place));
        script.put("T");
    }
}

#[cfg(test)]
mod tests {
    use super::*;
    use crate::records::MOST_TURNED_AWAY;
    use std::collections::BTreeSet;

    fn scripts() -> impl Iterator<Item = String> {
        (0..400).map(|number| String::from_utf8(drawn(1, number).input).expect("a script is text"))
    }

    #[test]
    fn any_call_follows_any() {
        let (calls, mut pairs) = ("UABOSR", BTreeSet::new());
        for script in scripts() {
            let letters: Vec<char> = script.chars().filter(|letter| calls.contains(*letter)).collect();
            pairs.extend(letters.windows(2).map(|pair| (pair[0], pair[1])));
        }
        let follows = |call| calls.chars().all(|other| pairs.contains(&(call, other)));
        assert!("ABOSR".chars().all(follows), "{pairs:?}");
    }

    /// Whether a field that stands once is edited to more than 20 values that are so.
    fn many(field: u64, is: fn(u64) -> bool) -> bool {
        let edit = format!("E {field} 0 ");
        let values = |text: &str| -> Vec<u64> {
            text.lines().filter_map(|line| line.strip_prefix(&edit)?.parse().ok()).collect()
        };
        scripts().flat_map(|text| values(&text)).filter(|value| is(*value)).count() > 20
    }

    #[test]
    fn words_of_contenders_are_drawn() {
        assert!(many(WORD, |word| word >> 63 == 1));
        assert!(many(WORD, |word| word >> 6 == 0));
        assert!(many(WORD, |word| word.count_ones() > 20));
    }

    #[test]
    fn counts_of_packets_turned_away_are_drawn() {
        assert!(many(TURNED_AWAY, |count| count < 1_000));
        assert!(many(TURNED_AWAY, |count| (MOST_TURNED_AWAY - 3..=MOST_TURNED_AWAY).contains(&count)));
        assert!(many(TURNED_AWAY, |count| count > MOST_TURNED_AWAY));
    }
}
