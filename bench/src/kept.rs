//! What a plain machine's state has, however it is kept.

use crate::case::Case;

#[derive(Clone, Copy, PartialEq, Eq, Hash)]
pub enum Entry {
    Store(u8, u32),
    Flush(u8),
    FlushOpt(u8),
    Sfence,
}

/// What waits in a location's queue: a write of a word, or a marker of a thread.
#[derive(Clone, Copy, PartialEq, Eq, Hash)]
pub enum Slot {
    Write(u32),
    Marker(u8),
}

impl Default for Entry {
    fn default() -> Self {
        Entry::Sfence
    }
}

impl Default for Slot {
    fn default() -> Self {
        Slot::Write(0)
    }
}

/// Threads, locations and registers by their numbers; a place in a row by how many are older there.
pub trait Kept: Clone {
    fn start(case: &Case) -> Self;

    fn locations(&self) -> u8;
    fn word(&self, location: u8) -> u32;
    fn set_word(&mut self, location: u8, word: u32);
    fn queued(&self, location: u8) -> usize;
    fn slot(&self, location: u8, at: usize) -> Slot;
    fn add_slot(&mut self, location: u8, slot: Slot);
    fn take_slot(&mut self, location: u8) -> Slot;

    fn issued(&self, thread: u8) -> u8;
    fn count_issue(&mut self, thread: u8);
    fn register(&self, thread: u8, register: u8) -> u32;
    fn set_register(&mut self, thread: u8, register: u8, word: u32);
    fn waiting(&self, thread: u8) -> usize;
    fn entry(&self, thread: u8, at: usize) -> Entry;
    fn add_entry(&mut self, thread: u8, entry: Entry);
    fn take_entry(&mut self, thread: u8, at: usize) -> Entry;
}
