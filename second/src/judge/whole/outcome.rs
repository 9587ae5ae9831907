//! Whether a compare succeeds, told by the words of the request. The word is looked up here once more, so
//! that what is counted of compares does not rest on what the machine makes of them.

use super::program::is_compare;
use crate::judge::case::{Case, Instruction, Step};
use crate::judge::machine::effects::advance;
use crate::judge::machine::rules::{check, ISSUE};
use crate::judge::machine::state::State;

#[derive(Clone, Copy, Debug, PartialEq, Eq)]
pub enum Outcome {
    Succeeds,
    Fails,
}

impl Outcome {
    /// Of a step that issues a compare, were it legal; none of any other.
    pub fn of(case: &Case, state: &State, step: &Step) -> Option<Outcome> {
        let next = issued(case, state, step).filter(is_compare)?;
        let held = state.registers[usize::from(step.thread)][usize::from(next.register)];
        Some(match seen(case, state, next.location) == held {
            true => Outcome::Succeeds,
            false => Outcome::Fails,
        })
    }

    /// Failed compares of a run, up to its first illegal step.
    pub fn failed(case: &Case, run: &[Step]) -> usize {
        let outcomes = along(case, run, Outcome::of);
        outcomes
            .iter()
            .filter(|&&one| one == Outcome::Fails)
            .count()
    }

    /// How much of the work left a step uses up, with that outcome or none.
    pub fn cost(outcome: Option<Outcome>) -> u32 {
        match outcome {
            Some(Outcome::Fails) => 2,
            _ => 1,
        }
    }
}

/// What the step issues, were it legal; nothing, if it is no issue or none is left.
pub fn issued(case: &Case, state: &State, step: &Step) -> Option<Instruction> {
    let next = state.unissued(case, step.thread.into()).first();
    next.filter(|_| step.code == ISSUE).copied()
}

/// What is told of the steps of a run, up to its first illegal one.
pub fn along<T>(case: &Case, run: &[Step], told: fn(&Case, &State, &Step) -> Option<T>) -> Vec<T> {
    let mut state = State::start(case);
    let mut all = Vec::new();
    for step in run {
        if check(case, &state, step).is_err() {
            break;
        }
        all.extend(told(case, &state, step));
        advance(case, &mut state, step);
    }
    all
}

/// What the persistent word would be if all of the line's queue had gone there.
pub fn seen(case: &Case, state: &State, at: u8) -> u32 {
    let queued = state.queues[case.line_of(at)].used().iter();
    let own = queued.filter(|held| held.location() == Some(at));
    own.fold(state.words[usize::from(at)], |_, held| held.word)
}
