//! The parts of the comparison: the records of a scenario, the cases, and playing two programs side by side.

mod batch;
pub mod case;
pub mod comparing;
mod edges;
mod folder;
mod layout;
pub mod records;
mod running;
mod scenario;
mod script;
mod seeded;
pub mod sets;
