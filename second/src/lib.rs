//! A second engine for the window bus: set-up, admission, begin, probe, step, scenario reader, listing,
//! sheet and layouts.
#![forbid(unsafe_code)]

pub mod admission;
pub mod batch;
pub mod drive;
pub mod fault;
pub mod layout;
pub mod lines;
pub mod listing;
pub mod measure;
mod play;
pub mod records;
pub mod refusal;
pub mod scenario;
pub mod set_up;
pub mod sheet;
pub mod show;
pub mod standing;
pub mod state;
pub mod step;
pub mod totals;
pub mod words;
