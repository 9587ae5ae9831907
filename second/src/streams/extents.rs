//! Cases counted by how much of each thing they have, so that no size is left out.

use crate::judge::case::{Case, MOST_INSTRUCTIONS, MOST_STEPS};
use crate::streams::tally::{row, Row};

pub struct ExtentCounts {
    /// Threads by their number of instructions.
    instructions: [u64; MOST_INSTRUCTIONS + 1],
    /// Numbers of steps.
    steps: [bool; MOST_STEPS + 1],
}

impl ExtentCounts {
    pub fn new() -> ExtentCounts {
        ExtentCounts {
            instructions: [0; MOST_INSTRUCTIONS + 1],
            steps: [false; MOST_STEPS + 1],
        }
    }

    /// Of a case that some file reads as.
    pub fn take(&mut self, case: &Case) {
        for &count in &case.counts[..usize::from(case.threads)] {
            self.instructions[usize::from(count)] += 1;
        }
        self.steps[usize::from(case.count)] = true;
    }

    /// Each number of instructions at least so often, and so many numbers of steps.
    pub fn rows(&self, least: u64, steps: u64) -> Vec<Row> {
        let threads = self.instructions.iter().enumerate();
        let mut rows: Vec<Row> = threads
            .map(|(number, &count)| row(&format!("threads, instructions: {number}"), count, least))
            .collect();
        let seen = self.steps.iter().filter(|&&seen| seen).count() as u64;
        rows.push(row("numbers of steps seen", seen, steps));
        rows
    }
}
