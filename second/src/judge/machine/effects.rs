//! What a legal step does to the state.

use super::rules::{COMPARE, EXCHANGE, ISSUE, MOVE};
use super::state::{Entry, Held, State};
use crate::judge::case::{Case, Instruction, Step};

pub fn advance(case: &Case, state: &mut State, step: &Step) {
    match step.code {
        ISSUE => issue(case, state, step.thread.into()),
        MOVE => shift(case, state, step.thread.into(), step.position.into()),
        _ => persist(state, step.line.into()),
    }
}

fn issue(case: &Case, state: &mut State, thread: usize) {
    let next = state.unissued(case, thread)[0];
    let (location, register) = (next.location, usize::from(next.register));
    let store = |word| Entry::Store { location, word };
    let entry = match next.operation {
        1 => Some(store(next.word)),
        2 => Some(store(state.registers[thread][register])),
        3 => {
            state.registers[thread][register] = loaded(case, state, thread, location);
            None
        }
        EXCHANGE | COMPARE => {
            swap(case, state, thread, &next);
            None
        }
        5 => Some(Entry::Flush(location)),
        6 => Some(Entry::FlushOpt(location)),
        7 => Some(Entry::Sfence),
        _ => None,
    };
    if let Some(entry) = entry {
        state.buffers[thread].push(entry);
    }
    state.issued[thread] += 1;
}

/// The register takes what all threads see, and the word is written; by a compare only if the register
/// held just that.
fn swap(case: &Case, state: &mut State, thread: usize, next: &Instruction) {
    let read = shared(case, state, next.location);
    let register = &mut state.registers[thread][usize::from(next.register)];
    let expected = std::mem::replace(register, read);
    if next.operation == EXCHANGE || read == expected {
        let write = Held::write(next.location, next.word);
        state.queues[case.line_of(next.location)].push(write);
    }
}

/// The newest store in the thread's own buffer, else what all threads see.
fn loaded(case: &Case, state: &State, thread: usize, at: u8) -> u32 {
    let own = |entry: &Entry| match *entry {
        Entry::Store { location, word } if location == at => Some(word),
        _ => None,
    };
    let newest = state.buffers[thread].used().iter().rev().find_map(own);
    newest.unwrap_or_else(|| shared(case, state, at))
}

/// The newest write of the location in its line's queue, else the persistent word.
fn shared(case: &Case, state: &State, at: u8) -> u32 {
    let mut held = state.queues[case.line_of(at)].used().iter().rev();
    let newest = held.find(|held| held.location() == Some(at));
    newest.map_or(state.words[usize::from(at)], |held| held.word)
}

fn shift(case: &Case, state: &mut State, thread: usize, position: usize) {
    match state.buffers[thread].take(position) {
        Entry::Store { location, word } => {
            state.queues[case.line_of(location)].push(Held::write(location, word));
        }
        Entry::FlushOpt(location) => {
            state.queues[case.line_of(location)].push(Held::marker(thread));
        }
        Entry::Flush(_) | Entry::Sfence => {}
    }
}

fn persist(state: &mut State, line: usize) {
    let oldest = state.queues[line].take(0);
    if let Some(location) = oldest.location() {
        state.words[usize::from(location)] = oldest.word;
    }
}
