//! The sentences of demand 3 that speak of one state and its legal steps, one by one. Those that
//! speak of the whole program are in `confirm`.

use super::explore::Visit;
use super::outcome::Outcome;
use super::program::Program;

pub struct Sentence {
    pub name: &'static str,
    pub broken: fn(&Program, &Visit) -> bool,
}

const fn sentence(name: &'static str, broken: fn(&Program, &Visit) -> bool) -> Sentence {
    Sentence { name, broken }
}

pub const WEDGED: &str = "never wedged";
pub const GOES_ON: &str = "nothing left, no step";
pub const STEP: &str = "each step lowers the work left by one, a failed compare by two";
pub const DEPTH: &str = "all runs to a state with as many failed compares have one length";
pub const LENGTH: &str = "a run that cannot go on has the full length less its failed compares";
pub const LAST_WRITE: &str = "at the end a last write that a thread really made there";
pub const ONE_WRITER: &str = "one writer, whose last word is there at the end";
pub const NO_WRITER: &str = "no writer, the first content in every state";
pub const ORIGIN: &str =
    "each persistent word is the first content, was written there or came by a register";

pub const OF_STATES: [Sentence; 9] = [
    sentence(WEDGED, |program, visit| {
        visit.point.has_more(&program.case) && visit.is_end()
    }),
    sentence(GOES_ON, |program, visit| {
        !visit.point.has_more(&program.case) && !visit.is_end()
    }),
    sentence(STEP, |_, visit| {
        let mut edges = visit.edges.iter();
        edges.any(|edge| edge.work + Outcome::cost(edge.outcome) != visit.work)
    }),
    sentence(DEPTH, |_, visit| {
        let mut edges = visit.edges.iter();
        edges.any(|edge| edge.depth != visit.depth + 1)
    }),
    sentence(LENGTH, |program, visit| {
        visit.is_end() && visit.depth + u32::from(visit.point.failed) != program.full
    }),
    sentence(LAST_WRITE, |program, visit| {
        visit.is_end() && locations(program).any(|at| !holds_last_write(program, visit, at))
    }),
    sentence(ONE_WRITER, |program, visit| {
        let other = |at| match program.only_word(at) {
            Some(word) => visit.point.state.words[at] != word,
            None => false,
        };
        visit.is_end() && locations(program).any(other)
    }),
    sentence(NO_WRITER, |program, visit| {
        let mut unwritten = locations(program).filter(|&at| program.writers[at].is_empty());
        unwritten.any(|at| !holds_first(program, visit, at))
    }),
    sentence(ORIGIN, |program, visit| {
        visit.origins(program).iter().any(|origin| origin.is_none())
    }),
];

fn locations(program: &Program) -> std::ops::Range<usize> {
    0..program.writers.len()
}

fn holds_first(program: &Program, visit: &Visit, at: usize) -> bool {
    visit.point.state.words[at] == program.case.first[at]
}

fn holds_last_write(program: &Program, visit: &Visit, at: usize) -> bool {
    if visit.writers(program, at).is_empty() {
        holds_first(program, visit, at)
    } else {
        !visit.winners(program, at).is_empty()
    }
}
