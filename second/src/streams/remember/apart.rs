//! What tells two states of a program apart, where all the rest of them is the same: a walk that left it out
//! would take them for one.

use crate::judge::case::{Case, MOST_LOCATIONS, MOST_THREADS};
use crate::judge::machine::key;
use crate::judge::machine::state::{Buffer, Entry, Queue, State, MARKER, THREAD_REGISTERS};
use crate::judge::walk::Walk;
use crate::streams::tally::{row, Row};
use std::collections::HashSet;

/// So many states of a case are looked at, at the most.
const MOST_STATES: u32 = 1000;

/// A part of a state: its name, the least number of cases in which it tells two states apart, and the state
/// without it.
type Part = (&'static str, u64, fn(&mut State));

const LAST_THREAD: usize = MOST_THREADS - 1;
const LAST_LOCATION: usize = MOST_LOCATIONS - 1;
const LAST_REGISTER: usize = THREAD_REGISTERS - 1;

const PARTS: [Part; 16] = [
    ("words", 200, |s| s.words = [0; MOST_LOCATIONS]),
    ("registers", 200, |s| {
        s.registers = [[0; THREAD_REGISTERS]; MOST_THREADS]
    }),
    ("issued counts", 500, |s| s.issued = [0; MOST_THREADS]),
    ("queues", 500, |s| {
        s.queues.iter_mut().for_each(|queue| **queue = Queue::new())
    }),
    ("buffers", 500, |s| {
        s.buffers
            .iter_mut()
            .for_each(|buffer| **buffer = Buffer::new())
    }),
    ("the 16th location's word", 15, |s| {
        s.words[LAST_LOCATION] = 0
    }),
    ("the fourth thread's last register", 10, |s| {
        s.registers[LAST_THREAD][LAST_REGISTER] = 0
    }),
    ("the fourth thread's count", 20, |s| {
        s.issued[LAST_THREAD] = 0
    }),
    ("the 16th line's queue", 20, |s| {
        *s.queues[LAST_LOCATION] = Queue::new()
    }),
    ("the fourth thread's buffer", 20, |s| {
        *s.buffers[LAST_THREAD] = Buffer::new()
    }),
    ("a marker's thread", 20, |s| {
        each_mark(s, |mark| mark.min(MARKER))
    }),
    ("a write's location", 20, |s| {
        each_mark(s, |mark| if mark < MARKER { 0 } else { mark })
    }),
    ("a write or a marker", 20, |s| each_mark(s, |_| 0)),
    ("a write's word", 20, |s| {
        s.queues
            .iter_mut()
            .flat_map(|queue| queue.used_mut())
            .for_each(|held| held.word = 0)
    }),
    ("a store's word", 20, |s| {
        each_entry(s, |entry| match entry {
            Entry::Store { location, .. } => Entry::Store { location, word: 0 },
            other => other,
        })
    }),
    ("a flush-opt's location", 20, |s| {
        each_entry(s, |entry| match entry {
            Entry::FlushOpt(_) => Entry::FlushOpt(0),
            other => other,
        })
    }),
];

fn each_mark(state: &mut State, mark: fn(u8) -> u8) {
    for queue in &mut state.queues {
        for held in queue.used_mut() {
            held.mark = mark(held.mark);
        }
    }
}

fn each_entry(state: &mut State, entry: fn(Entry) -> Entry) {
    for buffer in &mut state.buffers {
        for one in buffer.used_mut() {
            *one = entry(*one);
        }
    }
}

/// By part: the cases in which it tells two states apart that are looked at.
#[derive(Default)]
pub struct ApartCounts([u64; PARTS.len()]);

impl ApartCounts {
    /// Takes a case, of whose states so many are looked at.
    pub fn take(&mut self, case: &Case, states: u32) {
        let mut walk = Walk::remembering(case);
        let mut left: Vec<HashSet<Vec<u8>>> = PARTS.iter().map(|_| HashSet::new()).collect();
        let mut looked = 0;
        let mut goes_on = states > 0;
        while goes_on && looked < states.min(MOST_STATES) {
            looked += 1;
            for ((_, _, without), keys) in PARTS.iter().zip(&mut left) {
                let mut state = walk.state().clone();
                without(&mut state);
                keys.insert(key::of(case, &state));
            }
            goes_on = walk.go_on();
        }
        for (count, keys) in self.0.iter_mut().zip(&left) {
            *count += u64::from((keys.len() as u32) < looked);
        }
    }

    pub fn rows(&self) -> Vec<Row> {
        let named = |((name, least, _), &count): (&Part, &u64)| {
            row(&format!("apart by {name}"), count, *least)
        };
        PARTS.iter().zip(&self.0).map(named).collect()
    }
}
