//! Sorts of frames of whole programs, told by the frame: how long its run is and what it wants.

use crate::judge::case::{Case, Step};
use crate::judge::machine::judge::LEGAL;
use crate::judge::machine::rules::{ISSUE, MOVE, NONE_LEFT, NO_ENTRY, PERSIST, QUEUE_EMPTY};
use crate::judge::whole::program::Program;
use crate::streams::tally::{sort, Sort};

/// A frame's case and its program.
pub struct Sight<'a> {
    pub case: &'a Case,
    pub program: &'a Program,
    /// Failed compares of the run.
    pub failed: usize,
}

pub const SORTS: [Sort<fn(&Sight) -> bool>; 10] = [
    sort("run written out", 500, |s| s.wanted()),
    sort("run that cannot go on", 500, |s| {
        !s.wanted() && s.run().len() == s.longest()
    }),
    sort("run cut off", 500, |s| s.run().len() < s.longest()),
    sort("cannot go on, a compare failed", 200, |s| {
        s.failed > 0 && s.run().len() == s.longest()
    }),
    sort("cannot go on, several failed", 50, |s| {
        s.failed > 1 && s.run().len() == s.longest()
    }),
    sort("cut off, a compare failed", 100, |s| {
        s.failed > 0 && s.run().len() < s.longest()
    }),
    sort("written out, a compare failed", 100, |s| {
        s.failed > 0 && s.wanted()
    }),
    sort("a step too many: issue", 50, |s| s.beyond() == Some(ISSUE)),
    sort("a step too many: move", 50, |s| s.beyond() == Some(MOVE)),
    sort("a step too many: persist", 50, |s| {
        s.beyond() == Some(PERSIST)
    }),
];

impl Sight<'_> {
    pub fn run(&self) -> &[Step] {
        &self.case.steps[..usize::from(self.case.count)]
    }

    /// How long the run is if it cannot go on.
    pub fn longest(&self) -> usize {
        self.program.full as usize - self.failed
    }

    pub fn wanted(&self) -> bool {
        self.case.wanted.contains(&true)
    }

    /// Where one step stands behind a run that cannot go on: its code.
    fn beyond(&self) -> Option<u8> {
        let (last, before) = self.run().split_last()?;
        (before.len() == self.longest()).then_some(last.code)
    }

    /// The number and the place that the frame must be answered: all is empty behind a run that cannot
    /// go on, so the step's code tells the rule.
    pub fn right(&self) -> (u8, usize) {
        let number = match self.beyond() {
            None => return (LEGAL, self.run().len()),
            Some(ISSUE) => NONE_LEFT,
            Some(MOVE) => NO_ENTRY,
            Some(_) => QUEUE_EMPTY,
        };
        (number, self.longest())
    }
}
