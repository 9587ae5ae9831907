//! Compares that the frames issue or have refused, counted one by one: in each run there may be several.

use super::answer::Answer;
use super::frame::{Job, Trial};
use crate::judge::case::{Case, Instruction, Step};
use crate::judge::machine::effects::advance;
use crate::judge::machine::judge::LEGAL;
use crate::judge::machine::rules::{BUFFER_NOT_EMPTY, MARKER_BEFORE_FENCE, STORE_REGISTER};
use crate::judge::machine::state::{Entry, Held, State};
use crate::judge::whole::outcome::issued;
use crate::judge::whole::outcome::Outcome::{self, Fails, Succeeds};
use crate::streams::tally::{row, sort, Row, Sort};

/// A step that issues a compare, or would.
pub struct Compared<'a> {
    case: &'a Case,
    state: &'a State,
    thread: usize,
    outcome: Outcome,
    /// 103, 22 or 23.
    number: u8,
    /// A step of a run, not a single one.
    in_run: bool,
}

/// What comes of it, by its number and its outcome, and the least number in runs and of single steps.
const ENDS: [(u8, Outcome, &str, [u64; 2]); 6] = [
    (LEGAL, Succeeds, "compare succeeds", [1000, 150]),
    (LEGAL, Fails, "compare fails", [1000, 150]),
    (
        BUFFER_NOT_EMPTY,
        Succeeds,
        "22, compare would succeed",
        [200, 150],
    ),
    (
        BUFFER_NOT_EMPTY,
        Fails,
        "22, compare would fail",
        [200, 150],
    ),
    (
        MARKER_BEFORE_FENCE,
        Succeeds,
        "23, compare would succeed",
        [200, 150],
    ),
    (
        MARKER_BEFORE_FENCE,
        Fails,
        "23, compare would fail",
        [200, 150],
    ),
];

/// The least number of legal stores from a register, in runs and of single steps.
const STORES: [u64; 2] = [10_000, 80];

/// Against what the register's word is held.
const COMPARES: [Sort<fn(&Compared) -> bool>; 8] = [
    sort("fails, the persistent word equal", 100, |c| {
        c.ended(LEGAL, Fails) && c.persistent() == c.held()
    }),
    sort("fails, an older write equal", 50, |c| {
        c.ended(LEGAL, Fails) && c.equals_queued(true)
    }),
    sort("fails, a neighbour's write equal", 50, |c| {
        c.ended(LEGAL, Fails) && c.equals_queued(false)
    }),
    sort("fails, the new word equal", 50, |c| {
        c.ended(LEGAL, Fails) && c.next().word == c.held()
    }),
    sort("succeeds, persistent word another", 100, |c| {
        c.ended(LEGAL, Succeeds) && c.persistent() != c.held()
    }),
    sort("succeeds, a neighbour's is newest", 100, |c| {
        let newest = c.queued().iter().rev().find_map(|held| held.location());
        let is_other = newest.map_or(false, |at| at != c.next().location);
        c.ended(LEGAL, Succeeds) && is_other
    }),
    sort("succeeds, the new word equal", 50, |c| {
        c.ended(LEGAL, Succeeds) && c.next().word == c.held()
    }),
    sort("22, would fail, own store equal", 50, |c| {
        c.ended(BUFFER_NOT_EMPTY, Fails) && c.equals_own_store()
    }),
];

impl Compared<'_> {
    fn ended(&self, number: u8, outcome: Outcome) -> bool {
        (self.number, self.outcome) == (number, outcome)
    }

    fn next(&self) -> Instruction {
        self.state.unissued(self.case, self.thread)[0]
    }

    /// What the register holds.
    fn held(&self) -> u32 {
        self.state.registers[self.thread][usize::from(self.next().register)]
    }

    fn persistent(&self) -> u32 {
        self.state.words[usize::from(self.next().location)]
    }

    fn queued(&self) -> &[Held] {
        let line = self.case.line_of(self.next().location);
        self.state.queues[line].used()
    }

    /// Some write of the line holds the register's word: one of the location, or of another.
    fn equals_queued(&self, own: bool) -> bool {
        let location = self.next().location;
        self.queued().iter().any(|held| {
            let is_such = held.location().map_or(false, |at| (at == location) == own);
            is_such && held.word == self.held()
        })
    }

    fn equals_own_store(&self) -> bool {
        let right = Entry::Store {
            location: self.next().location,
            word: self.held(),
        };
        self.state.buffers[self.thread].used().contains(&right)
    }
}

#[derive(Default)]
pub struct CompareCounts {
    /// In runs, and of single steps.
    ends: [[u64; 2]; ENDS.len()],
    counts: [u64; COMPARES.len()],
    /// Legal stores from a register, in runs and of single steps.
    stores: [u64; 2],
}

impl CompareCounts {
    /// Takes all compares of the frame; how much of the work left its legal steps use up.
    pub fn take(&mut self, trial: &Trial, answer: &Answer) -> u32 {
        let (case, verdict) = (&answer.case, &answer.verdict);
        let is_judged = matches!(verdict.number, LEGAL | 21..=29);
        match (&trial.job, &answer.given) {
            (Job::Step(step, _), Some(state)) if is_judged => {
                self.take_step(case, state, step, verdict.number, false)
            }
            (Job::Bytes | Job::Case, _) if is_judged => self.take_run(answer),
            _ => 0,
        }
    }

    fn take_run(&mut self, answer: &Answer) -> u32 {
        let (case, verdict) = (&answer.case, &answer.verdict);
        let mut state = State::start(case);
        let mut used = 0;
        for (place, step) in case.steps[..usize::from(case.count)].iter().enumerate() {
            if place == verdict.place {
                return used + self.take_step(case, &state, step, verdict.number, true);
            }
            used += self.take_step(case, &state, step, LEGAL, true);
            advance(case, &mut state, step);
        }
        used
    }

    /// What the step uses up: nothing where it is illegal.
    fn take_step(
        &mut self,
        case: &Case,
        state: &State,
        step: &Step,
        number: u8,
        in_run: bool,
    ) -> u32 {
        let found = Outcome::of(case, state, step);
        if let Some(outcome) = found {
            let compared = Compared {
                case,
                state,
                thread: step.thread.into(),
                outcome,
                number,
                in_run,
            };
            self.count(&compared);
        }
        if number != LEGAL {
            return 0;
        }
        let next = issued(case, state, step);
        let stores = next.map_or(false, |next| next.operation == STORE_REGISTER);
        self.stores[usize::from(!in_run)] += u64::from(stores);
        Outcome::cost(found)
    }

    fn count(&mut self, compared: &Compared) {
        for ((number, outcome, ..), counts) in ENDS.iter().zip(&mut self.ends) {
            let is_such = compared.ended(*number, *outcome);
            counts[usize::from(!compared.in_run)] += u64::from(is_such);
        }
        for (sort, count) in COMPARES.iter().zip(&mut self.counts) {
            *count += u64::from((sort.told)(compared));
        }
    }

    pub fn rows(&self) -> Vec<Row> {
        let mut rows = Vec::new();
        for (place, whose) in ["in runs", "single"].into_iter().enumerate() {
            let name = format!("{whose}: store register");
            rows.push(row(&name, self.stores[place], STORES[place]));
            for ((.., name, leasts), counts) in ENDS.iter().zip(self.ends) {
                let name = format!("{whose}: {name}");
                rows.push(row(&name, counts[place], leasts[place]));
            }
        }
        let told = COMPARES.iter().zip(self.counts);
        rows.extend(told.map(|(sort, count)| row(sort.name, count, sort.least)));
        rows
    }
}
