//! All cases, in sets: the tables, the seeded ones, and files.

use crate::batch::{self, MOST_RUNS};
use crate::case::{Case, File, Holds, Kind, Shows};
use crate::{layout, scenario, script};
use std::borrow::Cow;
use std::collections::BTreeSet;
use std::fs;

/// The gate's seeded cases: their seed, and how many there are of each kind, in the order of the kinds.
pub const SEED: u64 = 1;
pub const COUNTS: [usize; 6] = [4_000, 1_160, 40, 480, 1_200, 400];

/// Some cases of one kind. Scripts that end with whole commands can be joined to one.
pub struct Set {
    pub name: &'static str,
    pub kind: Kind,
    pub joins: bool,
    cases: Cases,
}

enum Cases {
    Listed(Vec<Case>),
    Drawn { seed: u64, count: usize, draw: fn(u64, usize) -> Case },
}

impl Set {
    fn new(name: &'static str, kind: Kind, cases: Cases) -> Set {
        Set { name, kind, joins: kind == Kind::Script, cases }
    }

    /// Cases of which no two have the same input.
    fn listed(name: &'static str, kind: Kind, mut cases: Vec<Case>) -> Set {
        let mut inputs = BTreeSet::new();
        cases.retain(|case| inputs.insert((case.input.clone(), case.files.clone())));
        Set::new(name, kind, Cases::Listed(cases))
    }

    pub fn is_drawn(&self) -> bool {
        matches!(self.cases, Cases::Drawn { .. })
    }

    pub fn count(&self) -> usize {
        match &self.cases {
            Cases::Listed(cases) => cases.len(),
            Cases::Drawn { count, .. } => *count,
        }
    }

    /// The case of a number.
    pub fn case(&self, number: usize) -> Cow<'_, Case> {
        match &self.cases {
            Cases::Listed(cases) => Cow::Borrowed(&cases[number]),
            Cases::Drawn { seed, draw, .. } => Cow::Owned(draw(*seed, number)),
        }
    }
}

/// The tables.
pub fn tables() -> Vec<Set> {
    vec![
        Set::listed("fields of a scenario", Kind::Scenario, scenario::fields()),
        Set::listed("times that fall", Kind::Scenario, scenario::falling_times()),
        Set::listed("faults of a scenario, one or two", Kind::Scenario, scenario::pairs()),
        Set::listed("cuts of a scenario", Kind::Scenario, scenario::cuts()),
        Set::listed("sizes of scenarios and runs", Kind::Scenario, scenario::sizes()),
        Set::listed("faults of 64 stations", Kind::Scenario, scenario::far_stations()),
        Set::listed("rows of scripts/settled.table", Kind::Script, script::written(script::SETTLED)),
        Set::listed("numbers of calls", Kind::Script, script::asked()),
        Set::listed("faults of a set-up, one or two", Kind::Script, script::set_ups()),
        Set::listed("faults of admissions, none or more", Kind::Script, script::admissions()),
        Set::listed("states of scripts/lent.table", Kind::Script, script::listed()),
        Set::listed("fields of lent states", Kind::Script, script::swept()),
        Set::listed("rows of scripts/begin.table", Kind::Script, script::written(script::BEGIN)),
        Set::listed("orders of 1, 25, 26 and 17", Kind::Script, script::orders()),
        Set::listed("contenders as a contention begins", Kind::Script, script::contenders()),
        Set::listed("steps, and begins and probes", Kind::Script, script::pairs()),
        Set::listed("rows of scripts/turned-away.table", Kind::Script, script::written(script::TURNED_AWAY)),
        Set::listed("admissions refused, by the count before", Kind::Script, script::refusals()),
        Set::listed("stretches of refused admissions", Kind::Script, script::stretches()),
        Set { joins: false, ..Set::listed("odd texts", Kind::Script, script::odd_texts()) },
        Set::listed("losses of runs", Kind::Runs, batch::losses()),
        Set::listed("how many runs there are", Kind::Runs, batch::counts()),
        Set::listed("runs that do not balance", Kind::Runs, batch::unbalanced()),
        Set::listed("numbers of a sheet", Kind::Runs, batch::numbers()),
        Set::listed("cuts of a batch", Kind::Runs, batch::cuts()),
        Set::listed("sheets of files", Kind::Files, batch::sheets()),
        Set::listed("names of files", Kind::Files, batch::names()),
        Set::listed("rows of scripts/wrong-layouts.table", Kind::Layout, layout::written()),
        Set::listed("first words of a layout's lines", Kind::Layout, layout::first_words()),
        Set::listed("faults of a line, one or two", Kind::Layout, layout::pairs()),
        Set::listed("numbers of a layout", Kind::Layout, layout::fields()),
        Set::listed("sizes of layouts", Kind::Layout, layout::sizes()),
    ]
}

/// So many seeded cases of each kind.
pub fn seeded(seed: u64, counts: [usize; 6]) -> Vec<Set> {
    let [scenarios, scripts, files, runs, layouts, shown] = counts;
    let set = |name, kind, count, draw| Set::new(name, kind, Cases::Drawn { seed, count, draw });
    vec![
        set("seeded scenarios", Kind::Scenario, scenarios, scenario::drawn),
        set("seeded scripts", Kind::Script, scripts, script::drawn),
        set("seeded batches of files", Kind::Files, files, batch::drawn_files),
        set("seeded batches of runs", Kind::Runs, runs, batch::drawn_runs),
        set("seeded layouts", Kind::Layout, layouts, layout::drawn),
        set("seeded scenarios shown", Kind::Shown, shown, layout::drawn_shown),
    ]
}

/// Files: scripts and layouts by the ends of their names, and scenarios, which are also shown and are one batch.
pub fn files(paths: &[&str]) -> Result<Vec<Set>, String> {
    let case = |path: &str| {
        let input = fs::read(path).map_err(|fault| format!("{path}: {fault}"))?;
        let shows = said(&input);
        Ok(Case::new(path, input, shows))
    };
    let set = |name, kind| {
        let paths =
            paths.iter().filter(|path| kind_of(path) == if kind == Kind::Shown { Kind::Scenario } else { kind });
        paths.map(|path| case(path)).collect::<Result<_, String>>().map(|cases| Set::listed(name, kind, cases))
    };
    let scenarios = set("files of scenarios", Kind::Scenario)?;
    let one_batch = Set::listed("files of scenarios as one batch", Kind::Files, vec![together(&scenarios)]);
    let (scripts, layouts) = (set("files of scripts", Kind::Script)?, set("files of layouts", Kind::Layout)?);
    Ok(vec![scenarios, scripts, one_batch, layouts, set("files of scenarios, shown", Kind::Shown)?])
}

/// What a file is, by the end of its name.
fn kind_of(path: &str) -> Kind {
    match path.rsplit('.').next() {
        Some("script") => Kind::Script,
        Some("layout") => Kind::Layout,
        _ => Kind::Scenario,
    }
}

/// The batch of some scenarios, by the last parts of their names.
fn together(scenarios: &Set) -> Case {
    let file = |number: usize| {
        let case = scenarios.case(number);
        let name = case.name.rsplit('/').next().unwrap_or_default();
        File { name: name.into(), holds: Holds::Bytes(case.input.clone()) }
    };
    let files: Vec<File> = (0..scenarios.count().min(MOST_RUNS)).map(file).collect();
    Case::of(format!("{} files", files.len()), files, vec![Shows::Begins("highest loss")])
}

/// A script may say what it writes, in lines that begin with '#> '.
fn said(input: &[u8]) -> Vec<Shows> {
    let text = String::from_utf8_lossy(input);
    let lines: Vec<String> = text.lines().filter_map(|line| line.strip_prefix("#> ")).map(str::to_string).collect();
    if lines.is_empty() {
        Vec::new()
    } else {
        vec![Shows::Writes(lines)]
    }
}

#[cfg(test)]
mod tests {
    use super::*;
    use crate::records::LONGEST;

    #[test]
    fn a_case_of_a_table_is_told_by_its_name() {
        for set in tables() {
            let names: BTreeSet<String> = (0..set.count()).map(|number| set.case(number).name.clone()).collect();
            assert_eq!(names.len(), set.count(), "{}", set.name);
        }
    }

    #[test]
    fn a_file_is_known_by_its_name() {
        let kinds = ["a.script", "b/c.layout", "d.scenario", "layout", "script.layout.x"].map(kind_of);
        assert_eq!(kinds, [Kind::Script, Kind::Layout, Kind::Scenario, Kind::Layout, Kind::Scenario]);
    }

    #[test]
    fn a_script_says_what_it_writes() {
        let lines = ["U 2 0", "state"].map(str::to_string).to_vec();
        assert_eq!(said(b"U 3 # 2\n#> U 2 0\n# no more\n#> state\n"), [Shows::Writes(lines)]);
        assert_eq!(said(b"U 3 #> 2\n"), []);
    }

    #[test]
    fn scripts_are_read_to_their_end() {
        let sets = [tables(), seeded(SEED, [0, 200, 0, 0, 0, 0])].into_iter().flatten();
        for set in sets.filter(|set| set.joins) {
            assert!((0..set.count()).all(|number| set.case(number).input.len() < LONGEST), "{}", set.name);
        }
    }
}
