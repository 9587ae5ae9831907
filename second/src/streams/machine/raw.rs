//! A state as the bytes of a frame: words, what the queues hold, its marks, their lengths; the store
//! buffers' entries, how many wait, registers, issued counts.

use crate::judge::case::{ALL_CODE, MOST_LOCATIONS, MOST_THREADS};
use crate::judge::machine::state::{Entry, State, QUEUE_ROOM, THREAD_REGISTERS};
use std::ops::Range;

const WORD: usize = 4;
pub const ENTRY_BYTES: usize = 6;

/// Where the persistent words end.
pub const WORDS_END: usize = WORD * MOST_LOCATIONS;
const ENTRIES_AT: usize = WORDS_END + (WORD + 1) * MOST_LOCATIONS * QUEUE_ROOM + MOST_LOCATIONS;
const ENTRIES_END: usize = ENTRIES_AT + ENTRY_BYTES * ALL_CODE;
/// Where the store buffers' entries stand in the bytes.
pub const ENTRIES: Range<usize> = ENTRIES_AT..ENTRIES_END;
/// Waiting and issued counts are a byte for each thread.
pub const STATE_BYTES: usize = ENTRIES_END + (2 + WORD * THREAD_REGISTERS) * MOST_THREADS;

struct Bytes<'a>(&'a [u8]);

impl Bytes<'_> {
    fn byte(&mut self) -> u8 {
        let byte = self.0[0];
        self.0 = &self.0[1..];
        byte
    }

    fn word(&mut self) -> u32 {
        u32::from_le_bytes([self.byte(), self.byte(), self.byte(), self.byte()])
    }

    /// An entry's kind is taken modulo 4; what the kind does not use is ignored.
    fn entry(&mut self) -> Entry {
        let (kind, location, word) = (self.byte(), self.byte(), self.word());
        match kind % 4 {
            0 => Entry::Store { location, word },
            1 => Entry::Flush(location),
            2 => Entry::FlushOpt(location),
            _ => Entry::Sfence,
        }
    }
}

/// The state of so many bytes.
pub fn decode(bytes: &[u8]) -> State {
    let mut state = State::start(&crate::judge::case::Case::empty());
    let mut from = Bytes(bytes);
    state.words.fill_with(|| from.word());
    let queues = &mut state.queues;
    for held in queues.iter_mut().flat_map(|queue| &mut queue.places) {
        held.word = from.word();
    }
    for held in queues.iter_mut().flat_map(|queue| &mut queue.places) {
        held.mark = from.byte();
    }
    for queue in queues {
        queue.count = from.byte();
    }
    for entry in state
        .buffers
        .iter_mut()
        .flat_map(|buffer| &mut buffer.places)
    {
        *entry = from.entry();
    }
    for buffer in &mut state.buffers {
        buffer.count = from.byte();
    }
    for register in state.registers.iter_mut().flatten() {
        *register = from.word();
    }
    state.issued.fill_with(|| from.byte());
    state
}

pub fn encode(state: &State) -> Vec<u8> {
    let mut bytes = Vec::with_capacity(STATE_BYTES);
    for word in state.words {
        bytes.extend_from_slice(&word.to_le_bytes());
    }
    for held in state.queues.iter().flat_map(|queue| &queue.places) {
        bytes.extend_from_slice(&held.word.to_le_bytes());
    }
    for held in state.queues.iter().flat_map(|queue| &queue.places) {
        bytes.push(held.mark);
    }
    bytes.extend(state.queues.iter().map(|queue| queue.count));
    for &entry in state.buffers.iter().flat_map(|buffer| &buffer.places) {
        let (kind, location, word) = match entry {
            Entry::Store { location, word } => (0, location, word),
            Entry::Flush(location) => (1, location, 0),
            Entry::FlushOpt(location) => (2, location, 0),
            Entry::Sfence => (3, 0, 0),
        };
        bytes.extend_from_slice(&[kind, location]);
        bytes.extend_from_slice(&word.to_le_bytes());
    }
    bytes.extend(state.buffers.iter().map(|buffer| buffer.count));
    for register in state.registers.iter().flatten() {
        bytes.extend_from_slice(&register.to_le_bytes());
    }
    bytes.extend_from_slice(&state.issued);
    bytes
}
