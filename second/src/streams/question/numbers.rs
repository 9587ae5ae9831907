//! Every number that a question is answered, counted.

use crate::judge::refusal::UNSET_REGISTER;
use crate::streams::tally::{few_of, row, Row};

/// Each number, and the least number of frames in which it is.
const NUMBERS: [(u8, u64); 14] = [
    (100, 500),
    (101, 500),
    (102, 500),
    (31, 500),
    (1, 20),
    (2, 20),
    (3, 20),
    (4, 20),
    (5, 20),
    (6, 20),
    (7, 20),
    (8, 20),
    (9, 20),
    (UNSET_REGISTER, 20),
];

#[derive(Default)]
pub struct NumberCounts([u64; NUMBERS.len()]);

impl NumberCounts {
    pub fn take(&mut self, number: u8) {
        for ((one, _), count) in NUMBERS.iter().zip(&mut self.0) {
            *count += u64::from(*one == number);
        }
    }

    /// Of so many frames.
    pub fn rows(&self, frames: u64) -> Vec<Row> {
        let counted = |((number, least), &count): (&(u8, u64), &u64)| {
            let row = row(&format!("answered: {number}"), count, *least);
            match *number {
                UNSET_REGISTER => row.at_most(few_of(frames)),
                _ => row,
            }
        };
        NUMBERS.iter().zip(&self.0).map(counted).collect()
    }
}
