//! The stream of the machine: its frames, their answers and counts.

pub mod answer;
mod blocked;
pub mod counts;
pub mod frame;
pub mod generate;
mod marks;
mod outcomes;
pub mod raw;
mod sharing;
mod sorts;
pub mod spots;
