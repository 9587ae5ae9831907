//! The second judge's own tests, by the rooms that they test; they draw their cases from any stream.

mod by_hand;
mod judge;
mod streams;
