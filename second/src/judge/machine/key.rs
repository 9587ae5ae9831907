//! What a state is known by: bytes that two states of a program share only if they are the same.

use super::state::{Entry, State};
use crate::judge::case::Case;

/// All that the program's threads, locations and lines have, and behind each count what it counts: what
/// stands beyond is no part of a state.
pub fn of(case: &Case, state: &State) -> Vec<u8> {
    let threads = usize::from(case.threads);
    let mut key = Vec::with_capacity(160);
    key.extend_from_slice(&state.issued[..threads]);
    put(&mut key, &state.words[..usize::from(case.locations)]);
    for queue in &state.queues[..usize::from(case.lines)] {
        key.push(queue.count);
        for held in queue.used() {
            key.push(held.mark);
            put(&mut key, &[held.word]);
        }
    }
    for buffer in &state.buffers[..threads] {
        key.push(buffer.count);
        for &entry in buffer.used() {
            put_entry(&mut key, entry);
        }
    }
    for registers in &state.registers[..threads] {
        put(&mut key, registers);
    }
    key
}

pub fn put(key: &mut Vec<u8>, words: &[u32]) {
    for word in words {
        key.extend_from_slice(&word.to_le_bytes());
    }
}

fn put_entry(key: &mut Vec<u8>, entry: Entry) {
    match entry {
        Entry::Store { location, word } => {
            key.extend_from_slice(&[0, location]);
            put(key, &[word]);
        }
        Entry::Flush(location) => key.extend_from_slice(&[1, location]),
        Entry::FlushOpt(location) => key.extend_from_slice(&[2, location]),
        Entry::Sfence => key.push(3),
    }
}
