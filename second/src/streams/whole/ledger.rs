//! What is known of a program that was gone through, and its frames held to that.

use super::sorts::Sight;
use crate::judge::whole::confirm::{confirm, Found};
use crate::judge::whole::engine::OURS;
use crate::judge::whole::program::Program;
use crate::streams::machine::answer::Answer;
use std::collections::BTreeSet;

/// The most states of a program.
const MOST_STATES: usize = 400_000;

pub struct Known {
    pub program: Program,
    pub found: Found,
    /// Location and writer: those whose run written out has not come yet.
    pub open: BTreeSet<(usize, usize)>,
}

impl Known {
    pub fn explore(program: Program) -> Known {
        Known {
            found: confirm(&OURS, &program, MOST_STATES),
            open: program.pairs().into_iter().collect(),
            program,
        }
    }

    /// Takes a frame of the program; what is wrong with it, if anything is.
    pub fn take(&mut self, sight: &Sight, answer: &Answer) -> Option<&'static str> {
        let verdict = &answer.verdict;
        if sight.run().len() > sight.longest() + 1 {
            return Some("more than one step too many");
        }
        if (verdict.number, verdict.place) != sight.right() {
            return Some("not the number or not the place that its run has");
        }
        let left = sight.longest().saturating_sub(sight.run().len()) as u32;
        if (answer.work, answer.full) != (Ok(left), Ok(self.program.full)) {
            return Some("the work left or the full length");
        }
        if left == 0 && !self.found.memories.contains(&verdict.state.words) {
            return Some("an end that was not met");
        }
        if sight.wanted() {
            return self.take_written_out(sight, answer);
        }
        None
    }

    /// The want and the passed count tell the location and the writer.
    fn take_written_out(&mut self, sight: &Sight, answer: &Answer) -> Option<&'static str> {
        let case = sight.case;
        let pairs = self.program.pairs();
        let told = |&&(at, thread): &&(usize, usize)| case.wanted[at] && case.passed[thread] > 0;
        let told: Vec<_> = pairs.iter().filter(told).copied().collect();
        let (at, thread) = match told[..] {
            [one] => one,
            _ => return Some("no location with one that writes it"),
        };
        self.open.remove(&(at, thread));
        if sight.run() != self.program.carried(thread).run {
            return Some("not the run written out");
        }
        if answer.verdict.state.words[at] != case.want[at] {
            return Some("not that thread's last write");
        }
        None
    }
}
