//! Tests of the paper's worked example, settled examples, refusals, standing conditions, packets turned
//! away, beginnings, scripts and stretches.

mod beginning;
mod examples;
mod histories;
mod listing;
mod refusals;
mod script;
mod standing;
mod stretch;
mod turned_away;
mod worlds;
