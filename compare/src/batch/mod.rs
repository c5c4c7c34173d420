//! Batches of runs and their sheets (docs/SHEET.md says what a sheet is): the tables of batches in bytes and of batches of
//! scenario files, and the seeded ones.

mod drawn;
mod files;
mod runs;
mod sheet;

pub use drawn::{drawn_files, drawn_runs};
pub use files::{names, sheets};
pub use runs::{counts, cuts, losses, numbers, unbalanced};
pub use sheet::MOST_RUNS;
