//! Playing cases through two programs, comparing what they write, and counting.

use crate::case::{Case, Kind, Shows};
use crate::folder::Folder;
use crate::layout::{records, scenario_said, shown};
use crate::running::output_of;
use crate::sets::Set;
use std::borrow::Cow;
use std::ops::Range;
use std::sync::atomic::{AtomicUsize, Ordering};
use std::sync::Mutex;
use std::{env, fs, process, thread};

/// Two programs.
pub struct Pair {
    pub first: String,
    pub second: String,
}

/// The two that play inputs of each kind, in the order of the kinds.
pub type Programs = [Pair; 5];

/// The two that play a set.
fn of<'a>(programs: &'a Programs, set: &Set) -> &'a Pair {
    &programs[set.kind.place()]
}

/// Between two scripts that are played as one the state is written, as at an end, and a refused set-up makes it all zero.
const BETWEEN: &[u8] = b"\nP U 3 0 0 0 0 0 0\n";
const BETWEEN_SHOWS: &[u8] = b"U 2 0\n";

/// Text up to which scripts are joined.
const ROOM: usize = 60_000;

impl Pair {
    /// Nothing where both write the same for an input and it shows what it should; otherwise a sentence.
    pub fn fault(&self, input: &[u8], shows: &[Shows]) -> Option<String> {
        self.fault_of(Kind::Scenario, &Case::new("", input, shows.to_vec()))
    }

    /// The same of a case of a kind.
    fn fault_of(&self, kind: Kind, case: &Case) -> Option<String> {
        let output = |program: &str| match kind {
            Kind::Layout => scenario_said(program, &case.input),
            Kind::Shown => shown(program, &case.input),
            _ => output_of(program, &case.input, &case.files),
        };
        let both = output(&self.first).and_then(|first| Ok((first, output(&self.second)?)));
        let (first, second) = match both {
            Ok(both) => both,
            Err(sentence) => return Some(sentence),
        };
        let read_back = || if kind == Kind::Shown { self.read_back(&first, &case.input) } else { None };
        difference(&first, &second, &case.shows).or_else(read_back)
    }

    /// Nothing where the layout of a scenario says that scenario to the first program, or it is refused; otherwise a sentence.
    fn read_back(&self, layout: &[u8], scenario: &[u8]) -> Option<String> {
        if layout.starts_with(b"REFUSED ") {
            return None;
        }
        let said = scenario_said(&self.first, layout);
        said.map_or_else(Some, |said| {
            let expected = records(scenario);
            (said != expected.as_bytes()).then(|| parting([("read back", &said), ("shown", expected.as_bytes())]))
        })
    }

    /// The faults of some cases. The first program plays several as one script, and one by one only where that differs;
    /// where none has a fault by itself, the first is told for all.
    fn faults(&self, kind: Kind, cases: &[Cow<Case>]) -> Vec<Option<String>> {
        if cases.len() > 1 && self.is_same_joined(cases) == Ok(true) {
            return vec![None; cases.len()];
        }
        let mut faults: Vec<_> = cases.iter().map(|case| self.fault_of(kind, case)).collect();
        if cases.len() > 1 && faults.iter().all(Option::is_none) {
            faults[0] = Some(format!("it and the {} after it differ, but only as one script", cases.len() - 1));
        }
        faults
    }

    /// Whether the first program writes for the joined scripts what the second writes for each, and it shows all.
    fn is_same_joined(&self, cases: &[Cow<Case>]) -> Result<bool, String> {
        let (mut script, mut expected, mut shown) = (Vec::new(), Vec::new(), true);
        for case in cases {
            let output = output_of(&self.second, &case.input, &[])?;
            shown &= missing(&case.shows, &output).is_none();
            script.extend([&case.input, BETWEEN].concat());
            expected.extend([&output, BETWEEN_SHOWS].concat());
        }
        expected.extend(output_of(&self.second, b" ", &[])?);
        Ok(shown && output_of(&self.first, &script, &[])? == expected)
    }
}

/// What is missing in an output, if something is.
fn missing<'a>(shows: &'a [Shows], output: &[u8]) -> Option<&'a Shows> {
    let text = String::from_utf8_lossy(output);
    shows.iter().find(|shown| !shown.is_in(&text))
}

/// Nothing where two outputs are the same and show what they should; otherwise a sentence.
fn difference(first: &[u8], second: &[u8], shows: &[Shows]) -> Option<String> {
    if first != second {
        return Some(parting([("first", first), ("second", second)]));
    }
    missing(shows, first).map(|what| match what {
        Shows::Whole(whole) => parting([("both", first), ("expected", whole.as_bytes())]),
        what => format!("both write the same, but it does not show {what:?}"),
    })
}

/// The first line in which two texts differ, with their names.
fn parting(texts: [(&str, &[u8]); 2]) -> String {
    let lines = texts.map(|(_, text)| text.split_inclusive(|byte| *byte == b'\n').collect::<Vec<_>>());
    let at = lines[0].iter().zip(&lines[1]).take_while(|(one, other)| one == other).count();
    let shown = |of: usize| {
        let line = lines[of].get(at).map(|line| format!("{:?}", String::from_utf8_lossy(line)));
        format!("{} {:.120}", texts[of].0, line.as_deref().unwrap_or("has ended"))
    };
    format!("line {}: {}, {}", at + 1, shown(0), shown(1))
}

/// How many failed cases are told, and of how many the input is kept.
const TOLD: usize = 20;
const KEPT: usize = 3;

/// Plays all cases and prints what differs, how many of each set were played, and the counts. Yes if none failed.
pub fn play(sets: &[Set], programs: &Programs) -> bool {
    let (groups, failed) = (groups(sets), Mutex::new(Vec::new()));
    each(groups.len(), |at| {
        let (set, numbers) = groups[at].clone();
        let cases: Vec<Cow<Case>> = numbers.clone().map(|number| sets[set].case(number)).collect();
        let faults = numbers.zip(of(programs, &sets[set]).faults(sets[set].kind, &cases));
        let faults = faults.filter_map(|(number, fault)| Some((set, number, fault?)));
        failed.lock().expect("no worker stops").extend(faults);
    });
    let mut failed = failed.into_inner().expect("no worker stops");
    failed.sort();
    for (at, (set, number, sentence)) in failed.iter().take(TOLD).enumerate() {
        let kept = if at < KEPT { keep(&sets[*set].case(*number), at) } else { String::new() };
        println!("{}: {sentence}{kept}", told(&sets[*set], *number));
    }
    if failed.len() > TOLD {
        println!("and {} more", failed.len() - TOLD);
    }
    sets.iter().for_each(|set| println!("{} played: {}", set.count(), set.name));
    println!("{} passed, {} failed", places(sets).len() - failed.len(), failed.len());
    failed.is_empty()
}

/// A stride that takes cases which are far apart one after the other; a prime, so that it meets them all.
const STRIDE: usize = 7_919;

/// Plays cases until one differs, small sets first and seeded ones last, and prints that. Yes if one does. A kind whose
/// programs are '-' is passed over.
pub fn differs(sets: &[Set], programs: &Programs) -> bool {
    let mut order: Vec<&Set> = sets.iter().filter(|set| of(programs, set).first != "-").collect();
    order.sort_by_key(|set| (set.is_drawn(), set.count()));
    let places = order.into_iter().flat_map(|set| (0..set.count()).map(move |at| (set, at * STRIDE % set.count())));
    let seen = places.into_iter().find_map(|(set, number)| {
        let case = set.case(number);
        let sentence = of(programs, set).fault_of(set.kind, &case)?;
        Some(format!("{}: {sentence}", told(set, number)))
    });
    println!("{}", seen.as_deref().unwrap_or("no case differs"));
    seen.is_some()
}

fn told(set: &Set, number: usize) -> String {
    format!("{} {number} ({})", set.name, set.case(number).name)
}

/// The cases of all sets: which set, and which number.
fn places(sets: &[Set]) -> Vec<(usize, usize)> {
    sets.iter().enumerate().flat_map(|(set, cases)| (0..cases.count()).map(move |number| (set, number))).collect()
}

/// Which cases are played together: the set, and the numbers. What does not join is by itself.
fn groups(sets: &[Set]) -> Vec<(usize, Range<usize>)> {
    let mut groups: Vec<(usize, Range<usize>)> = Vec::new();
    let mut room = 0;
    for (set, number) in places(sets) {
        let length = if sets[set].joins { sets[set].case(number).input.len() + BETWEEN.len() } else { ROOM };
        match groups.last_mut() {
            Some((last, numbers)) if *last == set && length <= room => numbers.end += 1,
            _ => {
                groups.push((set, number..number + 1));
                room = ROOM;
            }
        }
        room = room.saturating_sub(length);
    }
    groups
}

/// Does something for each number below a count, for as many at a time as there are processors.
fn each(count: usize, act: impl Fn(usize) + Sync) {
    let next = AtomicUsize::new(0);
    let numbers = || std::iter::from_fn(|| Some(next.fetch_add(1, Ordering::Relaxed)).filter(|number| *number < count));
    let workers = thread::available_parallelism().map_or(1, |processors| processors.get());
    thread::scope(|scope| (0..workers).for_each(|_| drop(scope.spawn(|| numbers().for_each(&act)))));
}

/// Writes an input to the system's folder for temporary files, and says where it is.
fn keep(case: &Case, at: usize) -> String {
    if !case.files.is_empty() {
        return match Folder::with(&case.files) {
            Ok(folder) => format!("; files in {}", folder.kept().display()),
            Err(fault) => format!("; files not kept: {fault}"),
        };
    }
    let path = env::temp_dir().join(format!("compare-{}-{at}", process::id()));
    match fs::write(&path, &case.input) {
        Ok(()) => format!("; input in {}", path.display()),
        Err(fault) => format!("; input not kept: {}: {fault}", path.display()),
    }
}

#[cfg(test)]
mod tests {
    use super::*;
    use crate::case::{File, Holds};
    use crate::sets::seeded;

    #[test]
    fn the_first_difference_is_named() {
        let told = |first: &str, second: &str| difference(first.as_bytes(), second.as_bytes(), &[]).unwrap();
        assert_eq!(told("a\nb\nc\n", "a\nx\nc\n"), "line 2: first \"b\\n\", second \"x\\n\"");
        assert_eq!(told("a\n", "a\nb\n"), "line 2: first has ended, second \"b\\n\"");
        assert_eq!(told("a\n", "a"), "line 1: first \"a\\n\", second \"a\"");
        let not_whole = difference(b"a\nb\n", b"a\nb\n", &[Shows::Whole("a\nx\n".to_string())]);
        assert_eq!(not_whole.unwrap(), "line 2: both \"b\\n\", expected \"x\\n\"");
    }

    #[test]
    fn equal_outputs_have_no_fault() {
        let pair = |second: &str| Pair { first: "cat".to_string(), second: second.to_string() };
        assert_eq!(pair("cat").fault(b"a\n", &[]), None);
        assert!(pair("wc").fault(b"a\n", &[]).is_some());
        assert!(pair("cat").fault(b"a\n", &[Shows::End]).unwrap().contains("does not show End"));
        let files = vec![File { name: "a".into(), holds: Holds::Bytes(vec![b'b']) }];
        let fault = |second, shows| pair(second).fault_of(Kind::Files, &Case::of("", files.clone(), shows));
        assert_eq!(fault("cat", vec![Shows::Whole("b".to_string())]), None);
        assert_eq!(fault("ls", vec![]).unwrap(), "line 1: first \"b\", second \"a\\n\"");
    }

    #[test]
    fn each_kind_has_its_programs() {
        let names = ["busrun", "drive", "bussheet", "batch", "buslayout"];
        let programs = names.map(|name| Pair { first: name.to_string(), second: String::new() });
        let sets = seeded(1, [1; 6]);
        let first: Vec<&str> = sets.iter().map(|set| of(&programs, set).first.as_str()).collect();
        assert_eq!(first, [&names[..], &["buslayout"]].concat());
    }

    #[test]
    fn a_kind_without_programs_is_passed_over() {
        let pair = |first: &str| Pair { first: first.to_string(), second: "true".to_string() };
        let sets = seeded(1, [2; 6]);
        assert!(!differs(&sets, &["-", "-", "-", "-", "-"].map(pair)));
        assert!(differs(&sets, &["-", "-", "-", "cat", "-"].map(pair)));
    }
}
