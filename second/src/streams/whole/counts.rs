//! What a stream of frames of whole programs holds. Each program is gone through when its first
//! frame comes.

use super::ledger::Known;
use super::sorts::{Sight, SORTS};
use super::sums::SUMS;
use crate::judge::reading::read;
use crate::judge::whole::outcome::Outcome;
use crate::judge::whole::program::Program;
use crate::judge::writing::encode;
use crate::streams::layouts::LayoutCounts;
use crate::streams::machine::answer::answer;
use crate::streams::machine::frame::{Job, Trial};
use crate::streams::tally::{row, Counts, Row};
use std::collections::BTreeMap;

#[derive(Default)]
pub struct WholeCounts {
    frames: u64,
    sorts: [u64; SORTS.len()],
    /// By the bytes of the case without wants, passed counts and steps.
    programs: BTreeMap<Vec<u8>, Known>,
    faults: Vec<String>,
}

impl WholeCounts {
    pub fn new() -> WholeCounts {
        WholeCounts::default()
    }

    fn blame(&mut self, what: &str) {
        let frame = self.frames;
        self.faults.push(format!("frame {frame}: {what}"));
    }

    /// The program is gone through, unless it was so before.
    fn explore(&mut self, program: &Program) -> &mut Known {
        let bytes = encode(&program.case);
        if !self.programs.contains_key(&bytes) && !program.words_differ() {
            self.blame("words that are not all different");
        }
        let faults = &mut self.faults;
        self.programs.entry(bytes).or_insert_with(|| {
            let known = Known::explore(program.clone());
            let found = known.found.faults.iter();
            faults.extend(found.map(|fault| fault.text.clone()));
            known
        })
    }

    /// The greatest of all programs.
    fn greatest(&self, of: fn(&Known) -> u64) -> u64 {
        self.programs.values().map(of).max().unwrap_or(0)
    }
}

impl Counts<Trial> for WholeCounts {
    fn take(&mut self, trial: &Trial) {
        self.frames += 1;
        let reading = read(&trial.input);
        if trial.job != Job::Bytes || reading.number != 0 {
            return self.blame("no case whose run is judged");
        }
        let run = &reading.case.steps[..usize::from(reading.case.count)];
        let sight = Sight {
            case: &reading.case,
            program: &Program::of(&reading.case),
            failed: Outcome::failed(&reading.case, run),
        };
        for (sort, count) in SORTS.iter().zip(&mut self.sorts) {
            *count += u64::from((sort.told)(&sight));
        }
        let known = self.explore(sight.program);
        if let Some(what) = known.take(&sight, &answer(trial)) {
            self.blame(what);
        }
    }

    fn rows(&self) -> Vec<Row> {
        let mut rows = Vec::new();
        for sum in SUMS {
            let all = self.programs.values().map(sum.told);
            rows.push(row(sum.name, all.sum::<u128>(), sum.least));
        }
        let mut layouts = LayoutCounts::default();
        let programs = self.programs.values();
        programs.for_each(|known| layouts.take(&known.program.case));
        rows.extend(layouts.rows(15, 2..=3));
        let most = self.greatest(|known| known.found.states);
        rows.push(row("most states of a program", most, 5000));
        let failed =
            self.greatest(|known| known.found.failures.last().map_or(0, |&most| most.into()));
        rows.push(row("most failed compares of a run", failed, 3));
        let longest = self.greatest(|known| known.program.full.into());
        rows.push(row("greatest full length", longest, 19));
        for (sort, &count) in SORTS.iter().zip(&self.sorts) {
            rows.push(row(sort.name, count, sort.least));
        }
        rows
    }

    fn frames(&self) -> u64 {
        self.frames
    }

    fn wrong(&self) -> Vec<String> {
        let mut wrong = self.faults.clone();
        let open: usize = self.programs.values().map(|known| known.open.len()).sum();
        if open > 0 {
            wrong.push(format!("{open} pairs without their run written out"));
        }
        wrong
    }
}
