//! The walk as a plain depth-first search with a cloned state a step (document 01, "Work left and the walk"), and the same
//! search with a memory of the states it has met, which goes below none twice.

use crate::case::{Case, Step};
use crate::machine::Machine;
use crate::memory::{Forgets, Memory};
use std::collections::HashSet;
use std::hash::{BuildHasher, Hash};
use std::ops::ControlFlow::{self, Break, Continue};

pub const REACHED: u32 = 100;
pub const UNREACHABLE: u32 = 101;
pub const UNDECIDED: u32 = 102;

/// The answer, the runs or distinct states visited for it, and the run that reaches the question where one does.
#[derive(Clone, PartialEq, Debug)]
pub struct Answer {
    pub number: u32,
    pub visited: u32,
    pub steps: Vec<Step>,
}

struct Walk<'a, Met, Enough> {
    case: &'a Case,
    met: Met,
    enough: Enough,
    visited: u32,
    steps: Vec<Step>,
}

/// Of the first runs of the walk, as many as the case's budget.
pub fn question<M: Machine>(case: &Case) -> Answer {
    search::<M, _>(case, Forgets, |runs| runs == case.budget)
}

/// Of the first distinct states of the walk, as many as the budget.
pub fn remember<M: Machine + Eq + Hash, H: BuildHasher + Default>(case: &Case, budget: u32) -> Answer {
    search::<M, _>(case, HashSet::<M, H>::default(), |states| states == budget)
}

/// Undecided where there is more to visit when enough is.
pub fn search<M: Machine, Met: Memory<M>>(case: &Case, met: Met, enough: impl FnMut(u32) -> bool) -> Answer {
    let mut walk = Walk { case, met, enough, visited: 0, steps: Vec::new() };
    let start = M::start(case);
    walk.met.is_new(&start);
    let number = match walk.visit(&start) {
        Break(number) => number,
        Continue(()) => UNREACHABLE,
    };
    if number != REACHED {
        walk.steps.clear();
    }
    Answer { number, visited: walk.visited, steps: walk.steps }
}

impl<Met, Enough: FnMut(u32) -> bool> Walk<'_, Met, Enough> {
    /// Visits the run that led here and all that start with it; an answer breaks the walk off.
    fn visit<M: Machine>(&mut self, state: &M) -> ControlFlow<u32>
    where
        Met: Memory<M>,
    {
        if (self.enough)(self.visited) {
            return Break(UNDECIDED);
        }
        self.visited += 1;
        if state.reaches(self.case) {
            return Break(REACHED);
        }
        let threads = self.case.threads.len() as u8;
        for thread in 0..threads {
            self.follow(state, Step::Issue(thread))?;
        }
        for thread in 0..threads {
            for position in 0..state.waiting(thread) as u8 {
                self.follow(state, Step::Move(thread, position))?;
            }
        }
        for location in 0..self.case.locations {
            self.follow(state, Step::Persist(location))?;
        }
        Continue(())
    }

    fn follow<M: Machine>(&mut self, state: &M, step: Step) -> ControlFlow<u32>
    where
        Met: Memory<M>,
    {
        if state.is_legal(self.case, step) {
            let mut next = state.clone();
            next.take(self.case, step);
            if self.met.is_new(&next) {
                self.steps.push(step);
                self.visit(&next)?;
                self.steps.pop();
            }
        }
        Continue(())
    }
}
