//! The stream of the question: its frames, their answers and counts.

pub mod answer;
pub mod counts;
pub mod frame;
pub mod generate;
pub mod known;
pub mod ledger;
pub mod numbers;
pub mod sight;
pub mod sorts;
pub mod twins;
