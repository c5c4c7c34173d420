//! Seeded batches, for what no table foresees: of runs by classes, which go in rotation, and of seeded scenarios.

use super::sheet::{bytes, turned_away_of, Loss, Run, BEFORE_RUNS, MOST_RUNS, RUN_BYTES};
use crate::case::{Case, File, Holds, Shows};
use crate::scenario;
use crate::seeded::Numbers;
use std::iter;
use Holds::{Bytes, Folder, Nothing};

/// A class: how a batch of so many runs is drawn, and what its output shows.
struct Class(&'static str, fn(&mut Numbers, usize) -> Vec<u8>, &'static [Shows]);

const HIGHEST: Shows = Shows::Begins("highest loss ");
const UNBALANCED: Shows = Shows::Begins("REFUSED 24 ");

const CLASSES: &[Class] = &[
    Class("small counts", |numbers, many| batch(&runs(many, || small(numbers))), &[]),
    Class("few figures", |numbers, many| batch(&runs(many, || few_figures(numbers))), &[]),
    Class("equal losses", equal, &[HIGHEST]),
    Class("losses next to each other", next_to, &[HIGHEST]),
    Class("any counts", |numbers, many| batch(&runs(many, || any(numbers))), &[HIGHEST]),
    Class("losses past 64 bits", |numbers, many| batch(&runs(many, || large(numbers))), &[HIGHEST]),
    Class("runs that do not balance", unbalanced, &[UNBALANCED]),
    Class("counts and lengths of no batch", odd, &[]),
];

/// The seeded batch of runs of a number.
pub fn drawn_runs(seed: u64, number: usize) -> Case {
    let Class(name, draw, shows) = &CLASSES[number % CLASSES.len()];
    let mut numbers = Numbers::of(seed, number as u64);
    let many = numbers.pick(&[1, 2, 2, 3, 3, 5, 8, 20, 60]);
    Case::new(*name, draw(&mut numbers, many), shows.to_vec())
}

/// So many runs, drawn one by one.
fn runs(many: usize, draw: impl FnMut() -> Run) -> Vec<Run> {
    iter::repeat_with(draw).take(many).collect()
}

fn batch(runs: &[Run]) -> Vec<u8> {
    bytes(runs.len() as u64, runs)
}

fn below(numbers: &mut Numbers, bound: u32) -> u32 {
    numbers.below(bound.into()) as u32
}

fn small(numbers: &mut Numbers) -> Run {
    let [sent, lost, waiting, turned_away, wait] = [4, 4, 3, 3, 20].map(|bound| below(numbers, bound));
    Run::balanced(sent, lost, waiting, wait).turning_away(turned_away)
}

/// Mostly nothing lost, turned away or sent, else mostly nothing lost or turned away.
fn few_figures(numbers: &mut Numbers) -> Run {
    let [sent, lost, waiting, turned_away, wait] = [3, 2, 99, 3, 20].map(|bound| below(numbers, bound));
    match numbers.below(12) {
        0 => Run::balanced(sent, lost, waiting, wait).turning_away(turned_away),
        1 => Run::balanced(sent, 0, waiting, wait),
        2 => Run::balanced(0, 0, waiting, wait).turning_away(turned_away),
        _ => Run::balanced(0, 0, waiting, wait),
    }
}

/// Counts of any size, at least one lost.
fn any(numbers: &mut Numbers) -> Run {
    let [most, turned_away] = [(); 2].map(|()| u64::from(u32::MAX) >> numbers.below(32));
    let admitted = numbers.between((1, most));
    let lost = numbers.between((1, admitted));
    let sent = numbers.between((0, admitted - lost));
    let turned_away = numbers.below(turned_away + 1) as u32;
    let run = Run::balanced(sent as u32, lost as u32, (admitted - lost - sent) as u32, numbers.number() as u32);
    run.turning_away(turned_away)
}

/// Counts near the highest, so that losses have products past 64 bits.
fn large(numbers: &mut Numbers) -> Run {
    let near = |numbers: &mut Numbers| numbers.between((u64::from(u32::MAX) / 2, u32::MAX.into())) as u32;
    let (ended, turned_away) = (near(numbers), near(numbers));
    let sent = below(numbers, ended);
    Run::balanced(sent, ended - sent, 0, 1).turning_away(numbers.pick(&[turned_away, turned_away, u32::MAX]))
}

/// Three losses, each of as many packets or of many more.
fn equal(numbers: &mut Numbers, many: usize) -> Vec<u8> {
    let losses = [6, 6, 60].map(|bound| {
        let ended = numbers.between((1, bound));
        (numbers.between((0, ended)), ended)
    });
    batch(&runs(many, || times(numbers, &losses)))
}

/// A run of one of some losses, with its packets some or many times over, some, all or none of which are turned away.
fn times(numbers: &mut Numbers, losses: &[Loss]) -> Run {
    let (lost, ended) = numbers.pick(losses);
    let most = most_times((lost, ended));
    let (few, some) = (numbers.between((1, most.min(4))), numbers.between((1, most)));
    let times = numbers.pick(&[1, few, some, most]);
    let loss = (times * lost, times * ended);
    let (least, most) = turned_away_of(loss);
    let any = numbers.between((least, most));
    Run::of(loss, numbers.pick(&[least, any, most]), below(numbers, 4), below(numbers, 1_000))
}

/// How often a loss has room in a run: what is sent in 32 bits, what has ended in twice as much.
fn most_times((lost, ended): Loss) -> u64 {
    let most = u64::from(u32::MAX);
    (2 * most / ended).min(most / (ended - lost).max(1))
}

/// Two losses whose products differ by 1, mostly of as many packets as may be. Such are 0/1 and 1/1, and each of two such ones
/// with the loss between them that has the packets of both.
fn next_to(numbers: &mut Numbers, many: usize) -> Vec<u8> {
    let most = numbers.pick(&[1_000, u64::MAX, u64::MAX, u64::MAX]);
    let (mut low, mut high): (Loss, Loss) = ((0, 1), (1, 1));
    loop {
        let between = (low.0 + high.0, low.1 + high.1);
        if between.1 > most || most_times(between) == 0 {
            return batch(&runs(many, || times(numbers, &[low, low, high])));
        }
        *(if numbers.once_in(2) { &mut low } else { &mut high }) = between;
    }
}

/// Runs of small counts, of which one in four does not balance, and one does not for certain.
fn unbalanced(numbers: &mut Numbers, many: usize) -> Vec<u8> {
    let (mut runs, certain) = (runs(many, || small(numbers)), numbers.place(many));
    for (place, run) in runs.iter_mut().enumerate() {
        if place == certain || numbers.once_in(4) {
            *run = broken(numbers, *run);
        }
    }
    batch(&runs)
}

/// A run with one count changed, or with two, so that it balances in 32 bits and no further.
fn broken(numbers: &mut Numbers, run: Run) -> Run {
    let bit = 1 << numbers.below(32);
    match numbers.below(6) {
        0 => Run { admitted: run.admitted.wrapping_sub(1), ..run },
        1 => Run { admitted: run.admitted ^ bit, ..run },
        2 => Run { sent: run.sent ^ bit, ..run },
        3 => Run { lost: run.lost.wrapping_sub(1), ..run },
        4 => Run { waiting: run.waiting ^ bit, ..run },
        _ => Run { sent: !run.lost, waiting: run.admitted + 1, ..run },
    }
}

/// A batch with another count than that of its runs, or with an input that ends early or late.
fn odd(numbers: &mut Numbers, many: usize) -> Vec<u8> {
    let runs = runs(many, || any(numbers));
    let (fewer, far) = (numbers.below(many as u64 + 1), numbers.number());
    let count = numbers.pick(&[many as u64, many as u64, fewer, fewer, many as u64 + 1, MOST_RUNS as u64, far]);
    let mut input = bytes(count, &runs);
    let (cut, few) = (numbers.place(input.len()), numbers.place(many));
    input.resize(numbers.pick(&[input.len(), cut, BEFORE_RUNS + RUN_BYTES * few, input.len() + 7]), 1);
    input
}

/// The longest scenario that is in a seeded batch, in bytes, and how many there are to draw from.
const SHORT: usize = 1_000;
const SCENARIOS: usize = 1 << 20;

/// The seeded batch of files of a number: seeded scenarios, of which some have another name too, or are named again; and some
/// names of nothing, or of a folder.
pub fn drawn_files(seed: u64, number: usize) -> Case {
    let mut numbers = Numbers::of(seed, number as u64);
    let mut files: Vec<File> = Vec::new();
    for place in 0..numbers.between((1, 12)) {
        let name = format!("{}{place}", numbers.pick(&["", "run ", "in/", "ü\n"])).into_bytes();
        let earlier = if files.is_empty() { None } else { Some(files[numbers.place(files.len())].clone()) };
        files.push(match (numbers.below(12), earlier) {
            (0, _) => File { name, holds: Nothing },
            (1, _) => File { name, holds: Folder },
            (2, Some(file)) => file,
            (3..=4, Some(File { holds, .. })) => File { name, holds },
            _ => File { name, holds: Bytes(short(&mut numbers, seed)) },
        });
    }
    Case::of(format!("{} files", files.len()), files, vec![Shows::Begins("highest loss")])
}

/// A short one of the seeded scenarios.
fn short(numbers: &mut Numbers, seed: u64) -> Vec<u8> {
    loop {
        let input = scenario::drawn(seed, numbers.place(SCENARIOS)).input;
        if input.len() <= SHORT {
            return input;
        }
    }
}

#[cfg(test)]
mod tests {
    use super::*;
    use std::collections::BTreeSet;

    /// The run of some bytes.
    fn read(bytes: &[u8]) -> Run {
        let number = |at: usize| u32::from_le_bytes([0, 1, 2, 3].map(|byte| bytes[4 * at + byte]));
        let [admitted, sent, lost, waiting, turned_away, wait] = [0, 1, 2, 3, 4, 5].map(number);
        Run { admitted, sent, lost, waiting, turned_away, wait }
    }

    /// The runs of a hundred batches of a class.
    fn batches(class: &'static str) -> Vec<Vec<Run>> {
        let cases = (0..100 * CLASSES.len()).map(|number| drawn_runs(1, number)).filter(|case| case.name == class);
        cases.map(|case| case.input[BEFORE_RUNS..].chunks_exact(RUN_BYTES).map(read).collect()).collect()
    }

    /// The losses of a batch's runs that have a figure.
    fn losses(runs: &[Run]) -> Vec<Loss> {
        runs.iter().map(Run::loss).filter(|(_, ended)| *ended > 0).collect()
    }

    /// How many of a class's batches are so.
    fn many(class: &'static str, are: impl Fn(&[Run]) -> bool) -> usize {
        batches(class).iter().filter(|runs| are(runs)).count()
    }

    /// Those of some losses that are highest by a measure.
    fn highest<T: PartialOrd>(losses: &[Loss], measure: impl Fn(&Loss, &Loss) -> (T, T)) -> Vec<Loss> {
        let none_above = |loss: &&Loss| losses.iter().all(|other| measure(loss, other).0 >= measure(loss, other).1);
        losses.iter().filter(none_above).copied().collect()
    }

    fn exactly(&(a, b): &Loss, &(c, d): &Loss) -> (u128, u128) {
        (u128::from(a) * u128::from(d), u128::from(c) * u128::from(b))
    }

    fn modulo(&(a, b): &Loss, &(c, d): &Loss) -> (u64, u64) {
        (a.wrapping_mul(d), c.wrapping_mul(b))
    }

    fn roughly((a, b): &Loss, (c, d): &Loss) -> (f64, f64) {
        (*a as f64 / *b as f64, *c as f64 / *d as f64)
    }

    #[test]
    fn the_highest_loss_is_often_that_of_several() {
        let are = |runs: &[Run]| highest(&losses(runs), exactly).into_iter().collect::<BTreeSet<_>>().len() > 1;
        assert!(many("equal losses", are) > 40 && many("small counts", are) > 10);
    }

    #[test]
    fn the_highest_loss_is_often_close_to_an_earlier_one() {
        let are = |runs: &[Run]| {
            let losses = losses(runs);
            highest(&losses, roughly).first() != highest(&losses, exactly).first()
        };
        assert!(many("losses next to each other", are) > 20);
    }

    #[test]
    fn the_highest_loss_is_often_another_modulo_2_to_the_64() {
        let are = |runs: &[Run]| {
            let losses = losses(runs);
            highest(&losses, modulo).first() != highest(&losses, exactly).first()
        };
        assert!(many("losses past 64 bits", are) > 40);
        let past = |(a, b): (u128, u128)| a != b && a.min(b) > u64::MAX.into();
        let pass = |runs: &[Run]| losses(runs).windows(2).any(|pair| past(exactly(&pair[0], &pair[1])));
        assert!(many("losses next to each other", pass) > 20);
    }

    #[test]
    fn packets_are_often_only_turned_away() {
        let only = |run: &Run| run.turned_away > 0 && run.lost + run.sent == 0;
        assert!(many("few figures", |runs| runs.iter().any(only)) > 20);
    }

    #[test]
    fn figures_are_often_missing() {
        let first = |runs: &[Run]| losses(&runs[..1]).is_empty() && !losses(runs).is_empty();
        assert!(many("few figures", first) > 20 && many("few figures", |runs| losses(runs).is_empty()) > 20);
    }

    #[test]
    fn runs_do_not_balance_in_several_ways() {
        let sum = |run: &Run| u64::from(run.sent) + u64::from(run.lost) + u64::from(run.waiting);
        let first = |runs: &[Run]| runs.iter().position(|run| sum(run) != run.admitted.into()).expect("one does not");
        let around = |runs: &[Run]| runs[first(runs)].admitted == sum(&runs[first(runs)]) as u32;
        assert!(many("runs that do not balance", |runs| first(runs) > 0) > 20);
        assert!(many("runs that do not balance", around) > 5);
    }

    #[test]
    fn files_are_named_again_and_scenarios_twice() {
        let batches: Vec<Vec<File>> = (0..40).map(|number| drawn_files(1, number).files).collect();
        let many = |are: &dyn Fn(&[File]) -> bool| batches.iter().filter(|files| are(files)).count();
        let distinct = |files: &[File]| files.iter().collect::<BTreeSet<_>>().len();
        let held = |files: &[File]| files.iter().map(|file| &file.holds).collect::<BTreeSet<_>>().len();
        assert!(many(&|files| distinct(files) < files.len()) > 5 && many(&|files| held(files) < distinct(files)) > 10);
        assert!([1, 12].into_iter().all(|length| batches.iter().any(|files| files.len() == length)));
    }
}
