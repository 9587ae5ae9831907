//! What the frames of one case say together, whatever steps stand in them: below some budget 102,
//! from there on one and the same answer.

use super::frame::Query;
use super::known::Known;
use super::sight::Sight;
use super::twins::Twins;
use crate::judge::ask::{search, End, REACHED, UNDECIDED, UNREACHABLE};
use crate::judge::case::{Case, MOST_LOCATIONS};
use crate::judge::refusal::BUFFER_TOO_SHORT;
use crate::judge::writing::encode;
use crate::streams::layouts::{self, LayoutCounts};
use crate::streams::tally::{row, Row};
use std::collections::BTreeMap;

/// So many runs at most are looked at for what a line each would answer.
const APART: u32 = 4000;

#[derive(Default)]
pub struct Ledger {
    cases: BTreeMap<Vec<u8>, Known>,
    twins: Twins,
    /// Frames answered 31 in whose buffer the run to be shown has room.
    short_but_fits: u64,
    /// Of the decided cases, each once.
    layouts: LayoutCounts,
    /// Unreachable cases that are reached where each location has a line of its own.
    kept_whole: u64,
}

/// The file of a case without its steps.
pub fn without_steps(case: &Case) -> Vec<u8> {
    encode(&Case {
        count: 0,
        ..case.clone()
    })
}

impl Ledger {
    /// Takes a frame that reads well; what is wrong with its answer, if anything is.
    pub fn take(&mut self, sight: &Sight) -> Option<&'static str> {
        let case = without_steps(&sight.case);
        let known = self.cases.entry(case).or_default();
        let number = sight.answer.reply.number;
        let wrong = match number {
            BUFFER_TOO_SHORT => {
                let shown = known.run().len();
                let fits = shown > 0 && shown <= sight.answer.lent.len();
                self.short_but_fits += u64::from(fits);
                None
            }
            UNDECIDED => known.take_undecided(sight.covered),
            _ => {
                let is_new = !known.is_decided();
                let wrong = known.take_decided(sight.decided());
                wrong.or_else(|| is_new.then(|| self.take_lines(sight)).flatten())
            }
        };
        let Query { room, budget, .. } = *sight.query;
        let line = sight.answer.line();
        let twin = self.twins.take(&sight.case, &[room, budget], number, line);
        wrong.or(twin)
    }

    /// Takes a case that is decided: a shared line only takes runs away, and may keep a row whole.
    fn take_lines(&mut self, sight: &Sight) -> Option<&'static str> {
        let number = sight.answer.reply.number;
        let apart = with_a_line_each(&sight.case);
        self.layouts.take(&sight.case);
        self.kept_whole += u64::from((number, apart) == (UNREACHABLE, Some(REACHED)));
        let added = (number, apart) == (REACHED, Some(UNREACHABLE));
        added.then_some("reached, but not where each location has its own line")
    }

    pub fn rows(&self) -> Vec<Row> {
        let cases = self.cases.values();
        let ended = |number: u8| {
            let is = |known: &&Known| known.number() == number;
            cases.clone().filter(is).count() as u64
        };
        let mut rows = vec![
            row("cases", self.cases.len() as u64, 1000),
            row("cases reached", ended(100), 400),
            row("cases unreachable", ended(101), 250),
            row("cases undecided by all budgets", ended(0), 40),
            row("31, but the run has room", self.short_but_fits, 200),
            row("101, with a line each 100", self.kept_whole, 30),
        ];
        rows.extend(self.layouts.rows(12, 1..=MOST_LOCATIONS));
        rows.extend(self.twins.rows(100));
        rows
    }

    /// The cases that were decided and not tried with one budget less.
    pub fn open(&self) -> usize {
        let open = |known: &&Known| known.is_decided() && !known.is_exact();
        self.cases.values().filter(open).count()
    }
}

/// What is answered where each location has a line of its own; none where that takes too long, or where
/// each has one.
fn with_a_line_each(case: &Case) -> Option<u8> {
    if case.lines == case.locations {
        return None;
    }
    match search(&layouts::apart(case), APART).end {
        End::Reached(_) => Some(REACHED),
        End::Unreachable => Some(UNREACHABLE),
        End::Undecided => None,
    }
}
