//! A state of the machine.

use super::row::{Row, Shared};
use crate::judge::case::{Case, Instruction, ALL_CODE, REGISTERS};
use crate::judge::case::{MOST_INSTRUCTIONS, MOST_LOCATIONS, MOST_THREADS};

/// No queue of a fitting state grows beyond this: every instruction leaves one entry at the most.
pub const QUEUE_ROOM: usize = ALL_CODE;
pub const THREAD_REGISTERS: usize = REGISTERS as usize;

/// Marks from here on are those of flush-opt markers, by thread; below, of writes, by location.
pub const MARKER: u8 = 128;

/// What stands in a queue. A marker's word means nothing, but it is kept.
#[derive(Clone, Copy, Debug, Default, PartialEq, Eq)]
pub struct Held {
    pub word: u32,
    pub mark: u8,
}

impl Held {
    pub fn write(location: u8, word: u32) -> Held {
        Held {
            word,
            mark: location,
        }
    }

    pub fn marker(thread: usize) -> Held {
        Held {
            word: 0,
            mark: MARKER + thread as u8,
        }
    }

    /// Of a write; none of a marker.
    pub fn location(self) -> Option<u8> {
        (self.mark < MARKER).then_some(self.mark)
    }

    /// Of a marker; none of a write.
    pub fn thread(self) -> Option<u8> {
        self.mark.checked_sub(MARKER)
    }

    pub fn is_marker_of(self, thread: usize) -> bool {
        self.thread().map(usize::from) == Some(thread)
    }
}

/// What waits in a store buffer; each but the sfence names a location.
#[derive(Clone, Copy, Debug, PartialEq, Eq)]
pub enum Entry {
    Store { location: u8, word: u32 },
    Flush(u8),
    FlushOpt(u8),
    Sfence,
}

impl Entry {
    pub fn location(self) -> Option<u8> {
        match self {
            Entry::Store { location, .. } | Entry::Flush(location) | Entry::FlushOpt(location) => {
                Some(location)
            }
            Entry::Sfence => None,
        }
    }
}

impl Default for Entry {
    /// The blank.
    fn default() -> Entry {
        Entry::Store {
            location: 0,
            word: 0,
        }
    }
}

pub type Queue = Row<Held, QUEUE_ROOM>;
pub type Buffer = Row<Entry, MOST_INSTRUCTIONS>;

#[derive(Clone, Debug, PartialEq, Eq)]
pub struct State {
    /// The persistent words.
    pub words: [u32; MOST_LOCATIONS],
    /// By line: there are no more lines than locations.
    pub queues: [Shared<Queue>; MOST_LOCATIONS],
    pub buffers: [Shared<Buffer>; MOST_THREADS],
    pub registers: [[u32; THREAD_REGISTERS]; MOST_THREADS],
    pub issued: [u8; MOST_THREADS],
}

impl State {
    /// First contents, and nothing queued, waiting or issued.
    pub fn start(case: &Case) -> State {
        let (queue, buffer) = (Shared::new(Queue::new()), Shared::new(Buffer::new()));
        State {
            words: case.first,
            queues: std::array::from_fn(|_| queue.clone()),
            buffers: std::array::from_fn(|_| buffer.clone()),
            registers: [[0; THREAD_REGISTERS]; MOST_THREADS],
            issued: [0; MOST_THREADS],
        }
    }

    /// The thread's instructions that are not issued yet, the next one first.
    pub fn unissued<'a>(&self, case: &'a Case, thread: usize) -> &'a [Instruction] {
        let count = MOST_INSTRUCTIONS.min(case.counts[thread].into());
        let issued = usize::from(self.issued[thread]);
        &case.code[Case::places(thread)][issued.min(count)..count]
    }
}
