//! What a stream of questions holds, whether that is enough, and whether the answers agree with
//! the judge and with one another.

use super::answer::answer;
use super::frame::Query;
use super::ledger::Ledger;
use super::numbers::NumberCounts;
use super::sight::Sight;
use super::sorts::sorts;
use crate::judge::ask::{REACHED, UNREACHABLE};
use crate::judge::whole::outcome::Outcome;
use crate::streams::once::OnceCounts;
use crate::streams::tally::{row, Counts, Row};

/// Of the runs shown: which steps are counted, and the least number of them.
const SHOWN: [(&str, u64); 3] = [
    ("steps shown: store register", 20_000),
    ("steps shown: compare succeeds", 4_000),
    ("steps shown: compare fails", 2_500),
];

#[derive(Default)]
pub struct QueryCounts {
    frames: u64,
    runs: u64,
    numbers: NumberCounts,
    sorts: Vec<u64>,
    /// Of the runs shown: stores from a register, compares that succeed and that fail.
    shown: [u64; 3],
    ledger: Ledger,
    /// Of the frames that are decided.
    once: OnceCounts,
    faults: Vec<String>,
}

impl QueryCounts {
    pub fn new() -> QueryCounts {
        QueryCounts {
            sorts: vec![0; sorts().count()],
            ..QueryCounts::default()
        }
    }

    fn blame(&mut self, what: &str) {
        let frame = self.frames;
        self.faults.push(format!("frame {frame}: {what}"));
    }
}

impl Counts<Query> for QueryCounts {
    fn take(&mut self, query: &Query) {
        let answer = answer(query);
        let sight = Sight::new(query, &answer, query.budget);
        self.frames += 1;
        self.runs += u64::from(answer.reply.runs);
        self.numbers.take(answer.reply.number);
        for (sort, count) in sorts().zip(&mut self.sorts) {
            *count += u64::from((sort.told)(&sight));
        }
        let of = |such| sight.outcomes.iter().filter(|&&one| one == such).count();
        let shown = [sight.stored, of(Outcome::Succeeds), of(Outcome::Fails)];
        for (count, more) in self.shown.iter_mut().zip(shown) {
            *count += more as u64;
        }
        if [REACHED, UNREACHABLE].contains(&answer.reply.number) {
            self.once.take(&sight.case);
        }
        for what in sight.faults() {
            self.blame(what);
        }
        if sight.refusal == 0 {
            if let Some(what) = self.ledger.take(&sight) {
                self.blame(what);
            }
        }
    }

    fn rows(&self) -> Vec<Row> {
        let mut rows = self.numbers.rows(self.frames);
        for (sort, &count) in sorts().zip(&self.sorts) {
            rows.push(row(sort.name, count, sort.least));
        }
        for ((name, least), count) in SHOWN.iter().zip(self.shown) {
            rows.push(row(name, count, *least));
        }
        rows.extend(self.ledger.rows());
        rows.extend(self.once.rows("decided", [100; 5]));
        rows.push(row("runs looked at, all together", self.runs, 1_000_000));
        rows
    }

    fn frames(&self) -> u64 {
        self.frames
    }

    fn wrong(&self) -> Vec<String> {
        let open = self.ledger.open();
        let mut wrong = self.faults.clone();
        if open > 0 {
            wrong.push(format!("{open} cases: one budget less is not 102"));
        }
        wrong
    }
}
