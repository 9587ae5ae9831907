//! What a stream of such frames holds, whether that is enough, and whether the answers agree with the judge,
//! with one another and with the walk of all runs.

use super::answer::answer;
use super::frame::Loan;
use super::ledger::Ledger;
use super::sorts::{Seen, SORTS};
use crate::streams::question::numbers::NumberCounts;
use crate::streams::question::sight::Sight;
use crate::streams::question::sorts::SHARED;
use crate::streams::tally::{row, Counts, Row};

#[derive(Default)]
pub struct LoanCounts {
    frames: u64,
    states: u64,
    numbers: NumberCounts,
    /// Those of the loans, and those that the question has too.
    sorts: Vec<u64>,
    shared: Vec<u64>,
    ledger: Ledger,
    faults: Vec<String>,
}

impl LoanCounts {
    pub fn new() -> LoanCounts {
        LoanCounts {
            sorts: vec![0; SORTS.len()],
            shared: vec![0; SHARED.len()],
            ..LoanCounts::default()
        }
    }
}

impl Counts<Loan> for LoanCounts {
    fn take(&mut self, loan: &Loan) {
        let answer = answer(loan);
        let sight = Sight::new(&loan.query, &answer, loan.covered());
        let seen = Seen { loan, sight };
        self.frames += 1;
        self.states += u64::from(answer.reply.runs);
        self.numbers.take(answer.reply.number);
        for (sort, count) in SORTS.iter().zip(&mut self.sorts) {
            *count += u64::from((sort.told)(&seen));
        }
        for (sort, count) in SHARED.iter().zip(&mut self.shared) {
            *count += u64::from((sort.told)(&seen.sight));
        }
        let mut wrong = seen.sight.faults();
        if seen.sight.refusal == 0 {
            wrong.extend(self.ledger.take(loan, &seen.sight));
        }
        let frame = self.frames;
        let blamed = wrong.iter().map(|what| format!("frame {frame}: {what}"));
        self.faults.extend(blamed);
    }

    fn rows(&self) -> Vec<Row> {
        let mut rows = self.numbers.rows(self.frames);
        for (sort, &count) in SORTS.iter().zip(&self.sorts) {
            rows.push(row(sort.name, count, sort.least));
        }
        for (sort, &count) in SHARED.iter().zip(&self.shared) {
            rows.push(row(sort.name, count, sort.least));
        }
        rows.extend(self.ledger.rows());
        rows.push(row(
            "states looked at, all together",
            self.states,
            1_000_000,
        ));
        rows
    }

    fn frames(&self) -> u64 {
        self.frames
    }

    fn wrong(&self) -> Vec<String> {
        let open = self.ledger.open().into_iter();
        self.faults.iter().cloned().chain(open).collect()
    }
}
