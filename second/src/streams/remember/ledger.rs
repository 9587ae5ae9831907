//! What the frames of one case say together, and what the walk of all runs says of it.

use super::answer::line;
use super::apart::ApartCounts;
use super::frame::{Limit, Loan};
use crate::judge::ask::{search, End, REACHED, UNDECIDED, UNREACHABLE};
use crate::judge::case::MOST_LOCATIONS;
use crate::judge::refusal::BUFFER_TOO_SHORT;
use crate::judge::writing::encode_steps;
use crate::streams::layouts::LayoutCounts;
use crate::streams::question::known::Known;
use crate::streams::question::ledger::without_steps;
use crate::streams::question::sight::Sight;
use crate::streams::question::twins::Twins;
use crate::streams::tally::{row, Row};
use std::collections::BTreeMap;

/// So many runs of the walk of all runs are looked at, at the most.
const PLAIN: u32 = 100_000;

/// Of one case: what all its frames say, those in which the budget covers less, and those in which the memory does.
#[derive(Default)]
struct Told {
    all: Known,
    by_budget: Known,
    by_memory: Known,
}

#[derive(Default)]
pub struct Ledger {
    cases: BTreeMap<Vec<u8>, Told>,
    twins: Twins,
    /// Of the decided cases, each once: what tells states apart, which lines they share.
    apart: ApartCounts,
    layouts: LayoutCounts,
    /// Likewise: the walk of all runs decides too; it needs more runs than there are states; it does not decide.
    agreed: u64,
    shorter: u64,
    beyond: u64,
}

impl Ledger {
    /// Takes a frame that reads well; what is wrong with its answer, if anything is.
    pub fn take(&mut self, loan: &Loan, sight: &Sight) -> Vec<&'static str> {
        let number = sight.answer.reply.number;
        let told = self.cases.entry(without_steps(&sight.case)).or_default();
        let is_new = !told.all.is_decided();
        let mut wrong: Vec<&'static str> = match number {
            BUFFER_TOO_SHORT => Vec::new(),
            UNDECIDED => told
                .of(loan.limit())
                .filter_map(|known| known.take_undecided(sight.covered))
                .collect(),
            _ => told
                .of(loan.limit())
                .filter_map(|known| known.take_decided(sight.decided()))
                .collect(),
        };
        if is_new && [REACHED, UNREACHABLE].contains(&number) {
            self.apart.take(&sight.case, sight.answer.reply.runs);
            self.layouts.take(&sight.case);
            wrong.extend(self.take_plain(sight));
        }
        let with = [loan.query.room, loan.query.budget, loan.words];
        let line = line(loan, sight.answer);
        wrong.extend(self.twins.take(&sight.case, &with, number, line));
        wrong
    }

    /// Takes a case that is decided: wherever the walk of all runs decides too, they agree, the run included.
    fn take_plain(&mut self, sight: &Sight) -> Option<&'static str> {
        let plain = search(&sight.case, PLAIN);
        let (number, run) = match plain.end {
            End::Undecided => {
                self.beyond += 1;
                return None;
            }
            End::Reached(run) => (REACHED, encode_steps(&run)),
            End::Unreachable => (UNREACHABLE, Vec::new()),
        };
        let states = sight.answer.reply.runs;
        self.agreed += 1;
        self.shorter += u64::from(states < plain.runs);
        let decided = sight.decided();
        if (decided.number, decided.run) != (number, run) {
            return Some("the walk of all runs decides otherwise");
        }
        (states > plain.runs).then_some("more states than runs")
    }

    pub fn rows(&self) -> Vec<Row> {
        let of = |such: fn(&&Told) -> bool| self.cases.values().filter(such).count() as u64;
        let reached = of(|one| one.all.number() == REACHED);
        let unreachable = of(|one| one.all.number() == UNREACHABLE);
        let undecided = of(|one| !one.all.is_decided());
        let mut rows = vec![
            row("cases", self.cases.len() as u64, 1000),
            row("cases reached", reached, 400),
            row("cases unreachable", unreachable, 250),
            row("cases undecided by all limits", undecided, 40),
            row(
                "cases, exact by budget",
                of(|one| one.by_budget.is_exact()),
                1000,
            ),
            row(
                "cases, exact by memory",
                of(|one| one.by_memory.is_exact()),
                1000,
            ),
            row("cases that both walks decide", self.agreed, 1000),
            row("cases of fewer states than runs", self.shorter, 500),
            row("cases beyond 100,000 runs", self.beyond, 20),
        ];
        rows.extend(self.twins.rows(100));
        rows.extend(self.apart.rows());
        rows.extend(self.layouts.rows(12, 1..=MOST_LOCATIONS));
        rows
    }

    /// Whether some case was decided, and one state less not tried, or not 102, by the budget or by the memory.
    pub fn open(&self) -> Option<String> {
        let exact = |one: &Told| one.by_budget.is_exact() && one.by_memory.is_exact();
        let open = |one: &&Told| one.all.is_decided() && !exact(one);
        let count = self.cases.values().filter(open).count();
        (count > 0).then(|| format!("{count} cases: one state less is not 102"))
    }
}

impl Told {
    /// Those that a frame with that limit tells of.
    fn of(&mut self, limit: Limit) -> impl Iterator<Item = &mut Known> {
        let limited = match limit {
            Limit::Budget => Some(&mut self.by_budget),
            Limit::Memory => Some(&mut self.by_memory),
            Limit::Both => None,
        };
        std::iter::once(&mut self.all).chain(limited)
    }
}
