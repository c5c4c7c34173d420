//! Layouts, scenarios as texts that people write (docs/LAYOUT.md): the tables of right and wrong ones, the seeded ones, and
//! scenarios that are shown as layouts.

mod drawn;
mod faults;
mod fields;
mod said;
mod sizes;
mod table;
mod text;

pub use drawn::{drawn, drawn_shown};
pub use faults::{first_words, pairs};
pub use fields::fields;
pub use said::{records, scenario_said, shown};
pub use sizes::sizes;
pub use table::written;

use crate::case::{Case, Shows};
use crate::records::Scenario;

/// A layout that says a scenario.
fn right(name: impl Into<String>, layout: impl Into<Vec<u8>>, scenario: &Scenario) -> Case {
    Case::new(name, layout, vec![Shows::Whole(records(&scenario.bytes()))])
}

/// A layout that says some scenario.
fn some(name: impl Into<String>, layout: impl Into<Vec<u8>>) -> Case {
    Case::new(name, layout, vec![Shows::Begins(said::SET_UP)])
}

/// A layout that is wrong in a line, with a fault's number.
fn wrong(name: impl Into<String>, layout: impl Into<Vec<u8>>, line: usize, fault: u16) -> Case {
    Case::new(name, layout, vec![Shows::Whole(format!("{line} {fault}\n"))])
}
