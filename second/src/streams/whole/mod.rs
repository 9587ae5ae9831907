//! The stream of programs that are gone through whole: runs of them as frames of the machine, and
//! their counts.

pub mod counts;
pub mod generate;
mod ledger;
mod sorts;
mod sums;
