//! A state of the machine as the proved judge hands it out, cut to the program's threads, locations and cache lines.

use crate::case::Case;
use crate::sizes::{INSTRUCTIONS, LOCATIONS, QUEUE, REGISTERS, THREADS};

#[derive(Clone, Debug, PartialEq, Eq)]
pub struct State {
    /// The persistent words, by location.
    pub words: Vec<u32>,
    /// By cache line, the oldest entry first.
    pub queues: Vec<Vec<Held>>,
    /// By thread, the oldest entry first.
    pub buffers: Vec<Vec<Entry>>,
    pub registers: Vec<Vec<u32>>,
    /// Instructions issued, by thread.
    pub issued: Vec<usize>,
}

/// What waits in a queue.
#[derive(Clone, Copy, Debug, PartialEq, Eq)]
pub enum Held {
    Write { at: u8, word: u32 },
    Marker { thread: u8 },
}

/// What waits in a store buffer.
#[derive(Clone, Copy, Debug, PartialEq, Eq)]
pub enum Entry {
    Store { at: u8, word: u32 },
    Flush { at: u8 },
    FlushOpt { at: u8 },
    Sfence,
}

/// Where the parts of a state's bytes begin, as docs/FRAMES.md has them.
const HELD: usize = LOCATIONS * 4;
const MARKS: usize = HELD + SLOTS * 4;
const LENGTHS: usize = MARKS + SLOTS;
const BUFFERS: usize = LENGTHS + LOCATIONS;
const WAITING: usize = BUFFERS + THREADS * INSTRUCTIONS * ENTRY;
const WORDS_OF: usize = WAITING + THREADS;
const ISSUED: usize = WORDS_OF + THREADS * REGISTERS * 4;
const SLOTS: usize = LOCATIONS * QUEUE;
const ENTRY: usize = 6;
/// A mark below this one is a write's location; from it on, a marker's thread.
const MARKER: u8 = 128;

impl State {
    pub const BYTES: usize = ISSUED + THREADS;

    /// The state in the bytes that `batch` prints, which are that many.
    pub fn of(bytes: &[u8], case: &Case) -> State {
        let locations = 0..case.names.len();
        let threads = 0..case.threads.len();
        let registers = |thread: usize| {
            let slots =
                (0..REGISTERS).map(|register| WORDS_OF + 4 * (REGISTERS * thread + register));
            slots.map(|at| word(bytes, at)).collect()
        };
        State {
            words: locations.map(|at| word(bytes, 4 * at)).collect(),
            queues: (0..case.by_line().len())
                .map(|line| queue(bytes, line))
                .collect(),
            buffers: threads
                .clone()
                .map(|thread| buffer(bytes, thread))
                .collect(),
            registers: threads.clone().map(registers).collect(),
            issued: threads
                .map(|thread| bytes[ISSUED + thread] as usize)
                .collect(),
        }
    }
}

fn word(bytes: &[u8], at: usize) -> u32 {
    u32::from_le_bytes([bytes[at], bytes[at + 1], bytes[at + 2], bytes[at + 3]])
}

fn queue(bytes: &[u8], line: usize) -> Vec<Held> {
    let length = (bytes[LENGTHS + line] as usize).min(QUEUE);
    let held = |slot: usize| match bytes[MARKS + slot] {
        at if at < MARKER => Held::Write {
            at,
            word: word(bytes, HELD + 4 * slot),
        },
        mark => Held::Marker {
            thread: mark - MARKER,
        },
    };
    (line * QUEUE..line * QUEUE + length).map(held).collect()
}

fn buffer(bytes: &[u8], thread: usize) -> Vec<Entry> {
    let length = (bytes[WAITING + thread] as usize).min(INSTRUCTIONS);
    let entry = |slot: usize| {
        let from = BUFFERS + ENTRY * slot;
        let at = bytes[from + 1];
        match bytes[from] {
            0 => Entry::Store {
                at,
                word: word(bytes, from + 2),
            },
            1 => Entry::Flush { at },
            2 => Entry::FlushOpt { at },
            _ => Entry::Sfence,
        }
    };
    (thread * INSTRUCTIONS..thread * INSTRUCTIONS + length)
        .map(entry)
        .collect()
}

#[cfg(test)]
mod tests {
    use super::*;
    use crate::story::lives::tests::one_line;

    #[test]
    fn a_mark_is_a_location_or_from_128_on_a_thread() {
        let mut bytes = vec![0; State::BYTES];
        bytes[LENGTHS] = 3;
        bytes[MARKS + 1] = 1;
        bytes[HELD + 4] = 7;
        bytes[MARKS + 2] = 128;
        let case = one_line().case;
        let queue = vec![
            Held::Write { at: 0, word: 0 },
            Held::Write { at: 1, word: 7 },
            Held::Marker { thread: 0 },
        ];
        assert_eq!(State::of(&bytes, &case).queues, [queue]);
        bytes[MARKS + 2] = 131;
        let marker = State::of(&bytes, &case).queues[0][2];
        assert_eq!(marker, Held::Marker { thread: 3 });
    }
}
