//! The stream of the question that is asked of a walk that remembers: its frames, their answers and counts.

pub mod answer;
mod apart;
pub mod counts;
pub mod frame;
pub mod generate;
mod ledger;
mod sorts;
