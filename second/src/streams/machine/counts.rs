//! What a stream of the machine's frames holds, and whether that is enough.

use super::answer::{answer, Answer};
use super::blocked::{Blocked, BLOCKED};
use super::frame::{Job, Trial};
use super::marks::{mark_of, FAMILIES};
use super::outcomes::CompareCounts;
use super::raw;
use super::sharing::SHARING;
use super::sorts::SORTS;
use super::spots::SpotCounts;
use crate::judge::case::{MOST_LOCATIONS, MOST_STEPS};
use crate::judge::form;
use crate::judge::machine::fit::CLAUSES;
use crate::judge::machine::judge::LEGAL;
use crate::judge::reading::read;
use crate::judge::refusal::UNSET_REGISTER;
use crate::streams::cases::fields;
use crate::streams::extents::ExtentCounts;
use crate::streams::layouts::LayoutCounts;
use crate::streams::once::OnceCounts;
use crate::streams::tally::{few_of, row, Counts, Row};

/// Every number that is answered, and the least number of frames in which it is.
const NUMBERS: [(u8, u64); 22] = [
    (LEGAL, 4000),
    (1, 100),
    (2, 100),
    (3, 50),
    (4, 100),
    (5, 300),
    (6, 50),
    (7, 20),
    (8, 300),
    (9, 20),
    (UNSET_REGISTER, 20),
    (21, 450),
    (22, 450),
    (23, 450),
    (24, 450),
    (25, 450),
    (26, 450),
    (27, 450),
    (28, 450),
    (29, 450),
    (32, 1000),
    (33, 1200),
];

/// The families of frames whose input is refused, or may be.
const REFUSALS: [&str; 4] = [
    "reading refused",
    "legal: empty case",
    "step: reading refused",
    "start: reading refused",
];

const RULES: std::ops::RangeInclusive<u8> = 21..=29;

pub struct TrialCounts {
    frames: u64,
    /// By number: all frames, runs, and single steps.
    numbers: [[u64; 3]; 256],
    clauses: [u64; CLAUSES.len()],
    sorts: [u64; SORTS.len()],
    sharing: [u64; SHARING.len()],
    blocked: [u64; BLOCKED.len()],
    spots: SpotCounts,
    compares: CompareCounts,
    /// Of the cases whose run or step was judged.
    layouts: LayoutCounts,
    extents: ExtentCounts,
    once: OnceCounts,
    families: [u64; FAMILIES.len()],
    /// Inputs refused with 10, whatever the job, though they were not made to be refused.
    strays: u64,
    /// Lengths of legal runs, and indexes of illegal steps.
    lengths: [bool; MOST_STEPS + 1],
    indexes: [bool; MOST_STEPS],
    faults: Vec<String>,
}

impl TrialCounts {
    pub fn new() -> TrialCounts {
        TrialCounts {
            frames: 0,
            numbers: [[0; 3]; 256],
            clauses: [0; CLAUSES.len()],
            sorts: [0; SORTS.len()],
            sharing: [0; SHARING.len()],
            blocked: [0; BLOCKED.len()],
            spots: SpotCounts::new(),
            compares: CompareCounts::default(),
            layouts: LayoutCounts::default(),
            extents: ExtentCounts::new(),
            once: OnceCounts::default(),
            families: [0; FAMILIES.len()],
            strays: 0,
            lengths: [false; MOST_STEPS + 1],
            indexes: [false; MOST_STEPS],
            faults: Vec::new(),
        }
    }

    fn take_number(&mut self, trial: &Trial, answer: &Answer) {
        let (number, place) = (answer.verdict.number, answer.verdict.place);
        let counts = &mut self.numbers[usize::from(number)];
        counts[0] += 1;
        if answer.given.is_some() {
            counts[2] += 1;
            return;
        }
        if trial.job == Job::Start {
            return;
        }
        counts[1] += 1;
        if number == LEGAL {
            self.lengths[place] = true;
        } else if RULES.contains(&number) {
            self.indexes[place] = true;
        }
    }

    /// The states that are refused by one clause alone.
    fn take_clause(&mut self, answer: &Answer) {
        if let Some(state) = answer.given.as_ref().filter(|_| form::fits(&answer.case)) {
            let broken = |&clause: &usize| (CLAUSES[clause].broken)(&answer.case, state);
            let all: Vec<usize> = (0..CLAUSES.len()).filter(broken).collect();
            if let [one] = all[..] {
                self.clauses[one] += 1;
            }
        }
    }

    /// A marked frame has one right answer, or must fit. A refusal leaves the state as it was; a
    /// legal step uses up one of the work left, a failed compare two, and a legal run as much as its
    /// steps; a start has it all.
    fn check(&mut self, trial: &Trial, answer: &Answer, used: u32) {
        let (frame, verdict) = (self.frames, &answer.verdict);
        let legal = verdict.number == LEGAL;
        if let Some(mark) = mark_of(trial) {
            self.families[mark.family] += 1;
            if !mark.is_met(verdict) {
                let name = FAMILIES[mark.family].name;
                let got = (verdict.number, verdict.place, verdict.blocker);
                let right = (mark.number, mark.place, mark.blocker);
                let fault = format!("frame {frame}, {name}: {got:?} instead of {right:?}");
                self.faults.push(fault);
            }
        }
        if let Some(given) = &answer.given {
            if legal == (*given == verdict.state) {
                self.faults.push(format!("frame {frame}: the state"));
            }
        }
        if legal {
            let after = crate::judge::machine::work::work_left(&answer.case, &verdict.state);
            let before = match trial.job {
                Job::Step(..) => answer.work,
                _ => answer.full,
            };
            if after.map(|after| after + used) != before {
                self.faults.push(format!("frame {frame}: the work left"));
            }
        }
        if trial.job == Job::Start && !is_start(answer) {
            self.faults.push(format!("frame {frame}: the start"));
        }
        if trial.job == Job::Bytes && answer.work.is_err() {
            self.faults
                .push(format!("frame {frame}: no work for a case as read"));
        }
    }
}

impl Counts<Trial> for TrialCounts {
    fn take(&mut self, trial: &Trial) {
        let answer = answer(trial);
        self.frames += 1;
        self.take_number(trial, &answer);
        let stray = read(&trial.input).number == UNSET_REGISTER && !is_refusal(trial);
        self.strays += u64::from(stray);
        self.take_clause(&answer);
        for (sort, count) in SORTS.iter().zip(&mut self.sorts) {
            *count += u64::from((sort.told)(trial, &answer));
        }
        for (sort, count) in SHARING.iter().zip(&mut self.sharing) {
            *count += u64::from((sort.told)(trial, &answer));
        }
        if let Some(blocked) = Blocked::of(trial, &answer) {
            for (sort, count) in BLOCKED.iter().zip(&mut self.blocked) {
                *count += u64::from((sort.told)(&blocked));
            }
        }
        if !self.spots.take(trial, &answer) {
            self.faults
                .push(format!("frame {}: the blocker", self.frames));
        }
        let number = answer.verdict.number;
        if trial.job != Job::Start && (number == LEGAL || RULES.contains(&number)) {
            self.layouts.take(&answer.case);
            self.extents.take(&answer.case);
            self.once.take(&answer.case);
        }
        let used = self.compares.take(trial, &answer);
        self.check(trial, &answer, used);
    }

    fn rows(&self) -> Vec<Row> {
        let mut rows = Vec::new();
        for (number, least) in NUMBERS {
            let count = self.numbers[usize::from(number)][0];
            rows.push(row(&format!("answered: {number}"), count, least));
        }
        let most = few_of(self.frames);
        rows.push(row("input 10, not made for it", self.strays, 0).at_most(most));
        for rule in RULES {
            let [_, runs, steps] = self.numbers[usize::from(rule)];
            rows.push(row(&format!("run ended by {rule}"), runs, 300));
            rows.push(row(&format!("single step refused by {rule}"), steps, 150));
        }
        for (clause, &count) in CLAUSES.iter().zip(&self.clauses) {
            rows.push(row(&format!("33: {}", clause.name), count, 100));
        }
        for (sort, &count) in SORTS.iter().zip(&self.sorts) {
            rows.push(row(sort.name, count, sort.least));
        }
        for (sort, &count) in SHARING.iter().zip(&self.sharing) {
            rows.push(row(sort.name, count, sort.least));
        }
        for (sort, &count) in BLOCKED.iter().zip(&self.blocked) {
            rows.push(row(sort.name, count, sort.least));
        }
        rows.extend(self.spots.rows());
        rows.extend(self.compares.rows());
        rows.extend(self.layouts.rows(100, 1..=MOST_LOCATIONS));
        rows.extend(self.extents.rows(500, MOST_STEPS as u64 + 1));
        rows.extend(self.once.rows("judged", [100, 100, 100, 40, 40]));
        for (family, &count) in FAMILIES.iter().zip(&self.families) {
            rows.push(row(family.name, count, family.least));
        }
        let seen = |all: &[bool]| all.iter().filter(|&&one| one).count() as u64;
        let (lengths, indexes) = (seen(&self.lengths), seen(&self.indexes));
        let most = MOST_STEPS as u64;
        rows.push(row("legal lengths seen", lengths, most + 1));
        rows.push(row("illegal indexes seen", indexes, most - most / 10));
        rows
    }

    fn frames(&self) -> u64 {
        self.frames
    }

    fn wrong(&self) -> Vec<String> {
        self.faults.clone()
    }
}

/// The first contents of the case, none where 32 stops it, and nothing else.
fn is_start(answer: &Answer) -> bool {
    let first = match answer.verdict.number {
        LEGAL => answer.case.first,
        _ => [0; MOST_LOCATIONS],
    };
    let words: Vec<u8> = first.iter().flat_map(|word| word.to_le_bytes()).collect();
    let bytes = raw::encode(&answer.verdict.state);
    let (held, rest) = bytes.split_at(raw::WORDS_END);
    held == words && rest.iter().all(|&byte| byte == 0)
}

/// Whether the frame was made to have an input that is refused.
fn is_refusal(trial: &Trial) -> bool {
    let name = mark_of(trial).map(|mark| FAMILIES[mark.family].name);
    name.map_or(false, |name| REFUSALS.contains(&name))
}

/// Whether the frame changes a field of its case.
pub fn changes(trial: &Trial) -> bool {
    trial.job != Job::Bytes && (1..fields::END).contains(&trial.field)
}
