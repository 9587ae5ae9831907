//! Number 33: a machine state in memory that does not fit its case. The case is readable.

use super::state::{Held, State, QUEUE_ROOM};
use crate::judge::case::{Case, MOST_INSTRUCTIONS};

/// One way not to fit; each answers for any state, however large its counts are.
pub struct Clause {
    pub name: &'static str,
    pub broken: fn(&Case, &State) -> bool,
}

pub const CLAUSES: [Clause; 9] = [
    Clause {
        name: "buffer of a lacking thread",
        broken: |case, state| {
            let lacking = &state.buffers[usize::from(case.threads)..];
            lacking.iter().any(|buffer| buffer.count > 0)
        },
    },
    Clause {
        name: "queue of a lacking line",
        broken: |case, state| {
            let lacking = &state.queues[usize::from(case.lines)..];
            lacking.iter().any(|queue| queue.count > 0)
        },
    },
    Clause {
        name: "entry names a lacking location",
        broken: |case, state| {
            let mut waiting = state.buffers.iter().flat_map(|buffer| buffer.used());
            waiting.any(|entry| entry.location().map_or(false, |at| at >= case.locations))
        },
    },
    Clause {
        name: "write names a lacking location",
        broken: |case, state| {
            let lacks = |held: &Held| held.location().map_or(false, |at| at >= case.locations);
            held(state).any(|(_, held)| lacks(held))
        },
    },
    Clause {
        name: "write of another line",
        // Of a location that the program has, in the queue of a line that it has.
        broken: |case, state| {
            let strays = |line, held: &Held| {
                let own = held.location().filter(|&at| at < case.locations);
                own.map_or(false, |at| case.line_of(at) != line)
            };
            let mut held = held(state).filter(|&(line, _)| line < usize::from(case.lines));
            held.any(|(line, held)| strays(line, held))
        },
    },
    Clause {
        name: "marker names a lacking thread",
        broken: |case, state| {
            let lacks = |held: &Held| held.thread().map_or(false, |one| one >= case.threads);
            held(state).any(|(_, held)| lacks(held))
        },
    },
    Clause {
        name: "more issued than there are",
        broken: |case, state| {
            let mut pairs = state.issued.iter().zip(&case.counts);
            pairs.any(|(issued, count)| issued > count)
        },
    },
    Clause {
        name: "buffer and unissued above room",
        broken: |case, state| {
            let to_wait = |thread| waiting(state, thread) + state.unissued(case, thread).len();
            (0..state.buffers.len()).any(|thread| to_wait(thread) > MOST_INSTRUCTIONS)
        },
    },
    Clause {
        name: "queue and to come above room",
        broken: |case, state| {
            let to_come = to_come(case, state);
            let mut queues = state.queues.iter();
            queues.any(|queue| usize::from(queue.count) + to_come > QUEUE_ROOM)
        },
    },
];

pub fn fits(case: &Case, state: &State) -> bool {
    CLAUSES.iter().all(|clause| !(clause.broken)(case, state))
}

/// What stands in the queues, each with the queue's line.
fn held(state: &State) -> impl Iterator<Item = (usize, &Held)> {
    let queues = state.queues.iter().enumerate();
    queues.flat_map(|(line, queue)| queue.used().iter().map(move |held| (line, held)))
}

/// All entries in store buffers and all unissued instructions.
pub fn to_come(case: &Case, state: &State) -> usize {
    let threads = 0..state.buffers.len();
    threads
        .map(|thread| waiting(state, thread) + state.unissued(case, thread).len())
        .sum()
}

fn waiting(state: &State, thread: usize) -> usize {
    state.buffers[thread].count.into()
}
