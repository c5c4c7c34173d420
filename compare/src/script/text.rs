//! The text of a script, command by command.

use crate::records::Scenario;
use std::fmt::{Display, Write};

/// A script that grows.
#[derive(Clone, Default)]
pub struct Script {
    pub text: String,
}

/// An admission: an address, a value and a length.
pub type Admission = [u64; 3];

impl Script {
    /// Puts a line at the end.
    pub fn put(&mut self, line: impl Display) {
        writeln!(self.text, "{line}").expect("text grows");
    }

    /// Set-up with a row of a length and some pairs; n may be any number.
    pub fn set_up(&mut self, numbers: [u64; 4], n: u64, length: u64, pairs: &[[u64; 2]]) {
        self.put(format_args!("U {} {n} {length} {} {}", words(&numbers), pairs.len(), words(pairs.as_flattened())));
    }

    pub fn admit(&mut self, admission: &Admission) {
        self.put(format_args!("A {}", words(admission)));
    }

    /// A stretch with a row of a length and some fours.
    pub fn stretch(&mut self, steps: u64, length: u64, fours: &[[u64; 4]]) {
        self.put(format_args!("R {steps} {length} {} {}", fours.len(), words(fours.as_flattened())));
    }

    pub fn edit(&mut self, field: u64, place: usize, value: u64) {
        self.put(format_args!("E {field} {place} {value}"));
    }
}

/// Numbers with a space between them.
pub fn words(numbers: &[u64]) -> String {
    numbers.iter().map(u64::to_string).collect::<Vec<_>>().join(" ")
}

/// The numbers and the row of a scenario's set-up.
pub fn set_up_of(scenario: &Scenario) -> ([u64; 4], Vec<[u64; 2]>) {
    let set_up = &scenario.set_up;
    let numbers =
        [set_up.discipline.into(), set_up.parameters.into(), set_up.addresses.into(), set_up.laxity_step.into()];
    (numbers, scenario.stations.iter().map(|station| [station.address.into(), station.capability.into()]).collect())
}
