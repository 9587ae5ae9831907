//! A state in one row of numbers: for each thread how many it has issued, for each how many wait in its buffer, for each
//! location how many wait in its queue, for each its word; then the registers, the buffers and the queues, two numbers
//! an entry. So what a hash set looks at is in one piece.

use crate::case::{Case, INSTRUCTIONS, LOCATIONS, THREADS};
use crate::kept::{Entry, Kept, Slot};
use std::hash::{Hash, Hasher};

const REGISTERS: usize = 4;

/// The most numbers of a state: no more can wait than there are instructions, two numbers each.
const MOST: usize = (2 + REGISTERS) * THREADS + 2 * LOCATIONS + 2 * THREADS * INSTRUCTIONS;

/// A row that the numbers are kept in.
pub trait Row: Clone {
    fn zeros(count: usize) -> Self;
    fn at(&self, place: usize) -> u32;
    fn set(&mut self, place: usize, number: u32);
    fn insert(&mut self, place: usize, pair: [u32; 2]);
    fn remove(&mut self, place: usize);
}

/// As they are, on the heap.
pub type Numbers = Flat<Vec<u32>>;

/// A byte each, without a heap: words must be below 256 (`Case::with_small_words`).
pub type Bytes = Flat<Short>;

impl Row for Vec<u32> {
    fn zeros(count: usize) -> Self {
        vec![0; count]
    }

    fn at(&self, place: usize) -> u32 {
        self[place]
    }

    fn set(&mut self, place: usize, number: u32) {
        self[place] = number;
    }

    fn insert(&mut self, place: usize, pair: [u32; 2]) {
        self.splice(place..place, pair);
    }

    fn remove(&mut self, place: usize) {
        self.drain(place..place + 2);
    }
}

#[derive(Clone, Copy)]
pub struct Short {
    length: u8,
    bytes: [u8; MOST],
}

impl Short {
    fn used(&self) -> &[u8] {
        &self.bytes[..self.length as usize]
    }
}

impl PartialEq for Short {
    fn eq(&self, other: &Self) -> bool {
        self.used() == other.used()
    }
}

impl Eq for Short {}

impl Hash for Short {
    fn hash<H: Hasher>(&self, hasher: &mut H) {
        hasher.write(self.used());
    }
}

impl Row for Short {
    fn zeros(count: usize) -> Self {
        Short { length: count as u8, bytes: [0; MOST] }
    }

    fn at(&self, place: usize) -> u32 {
        u32::from(self.bytes[place])
    }

    fn set(&mut self, place: usize, number: u32) {
        self.bytes[place] = number as u8;
    }

    fn insert(&mut self, place: usize, pair: [u32; 2]) {
        self.bytes.copy_within(place..self.length as usize, place + 2);
        self.bytes[place..place + 2].copy_from_slice(&pair.map(|number| number as u8));
        self.length += 2;
    }

    fn remove(&mut self, place: usize) {
        self.bytes.copy_within(place + 2..self.length as usize, place);
        self.length -= 2;
    }
}

#[derive(Clone, Copy)]
pub struct Flat<R> {
    threads: u8,
    locations: u8,
    row: R,
}

/// Of one case all states have as many threads and locations.
impl<R: PartialEq> PartialEq for Flat<R> {
    fn eq(&self, other: &Self) -> bool {
        self.row == other.row
    }
}

impl<R: Eq> Eq for Flat<R> {}

impl<R: Hash> Hash for Flat<R> {
    fn hash<H: Hasher>(&self, hasher: &mut H) {
        self.row.hash(hasher);
    }
}

/// Where each part of the row begins.
impl<R: Row> Flat<R> {
    fn waiting_at(&self, thread: u8) -> usize {
        (self.threads + thread) as usize
    }

    fn queued_at(&self, location: u8) -> usize {
        (2 * self.threads + location) as usize
    }

    fn word_at(&self, location: u8) -> usize {
        self.queued_at(self.locations + location)
    }

    fn register_at(&self, thread: u8, register: u8) -> usize {
        self.word_at(self.locations) + REGISTERS * thread as usize + register as usize
    }

    fn entry_at(&self, thread: u8, at: usize) -> usize {
        self.behind(self.waiting_at(thread)) + 2 * at
    }

    fn slot_at(&self, location: u8, at: usize) -> usize {
        self.behind(self.queued_at(location)) + 2 * at
    }

    /// Behind the entries of all buffers and queues whose length stands before a place.
    fn behind(&self, place: usize) -> usize {
        let entries: u32 = (self.waiting_at(0)..place).map(|before| self.row.at(before)).sum();
        self.register_at(self.threads, 0) + 2 * entries as usize
    }

    fn pair(&self, place: usize) -> [u32; 2] {
        [self.row.at(place), self.row.at(place + 1)]
    }

    /// A pair more at a place, counted in a length that stands before it.
    fn add(&mut self, place: usize, pair: [u32; 2], length: usize) {
        self.row.insert(place, pair);
        self.row.set(length, self.row.at(length) + 1);
    }

    fn take(&mut self, place: usize, length: usize) -> [u32; 2] {
        let pair = self.pair(place);
        self.row.remove(place);
        self.row.set(length, self.row.at(length) - 1);
        pair
    }
}

/// Tags of a buffer's entries: a store's is its location, the others follow.
const FLUSH: u32 = LOCATIONS as u32;
const FLUSH_OPT: u32 = 2 * FLUSH;
const SFENCE: u32 = 3 * FLUSH;

fn packed_entry(entry: Entry) -> [u32; 2] {
    match entry {
        Entry::Store(location, word) => [u32::from(location), word],
        Entry::Flush(location) => [FLUSH + u32::from(location), 0],
        Entry::FlushOpt(location) => [FLUSH_OPT + u32::from(location), 0],
        Entry::Sfence => [SFENCE, 0],
    }
}

fn unpacked_entry([tag, word]: [u32; 2]) -> Entry {
    match tag {
        SFENCE.. => Entry::Sfence,
        FLUSH_OPT.. => Entry::FlushOpt((tag - FLUSH_OPT) as u8),
        FLUSH.. => Entry::Flush((tag - FLUSH) as u8),
        _ => Entry::Store(tag as u8, word),
    }
}

/// A write's tag is 0, a marker's is one more than its thread.
fn packed_slot(slot: Slot) -> [u32; 2] {
    match slot {
        Slot::Write(word) => [0, word],
        Slot::Marker(thread) => [1 + u32::from(thread), 0],
    }
}

fn unpacked_slot([tag, word]: [u32; 2]) -> Slot {
    match tag {
        0 => Slot::Write(word),
        _ => Slot::Marker((tag - 1) as u8),
    }
}

impl<R: Row> Kept for Flat<R> {
    fn start(case: &Case) -> Self {
        let (threads, locations) = (case.threads.len(), case.locations as usize);
        let row = R::zeros((2 + REGISTERS) * threads + 2 * locations);
        Flat { threads: threads as u8, locations: case.locations, row }
    }

    fn locations(&self) -> u8 {
        self.locations
    }

    fn word(&self, location: u8) -> u32 {
        self.row.at(self.word_at(location))
    }

    fn set_word(&mut self, location: u8, word: u32) {
        self.row.set(self.word_at(location), word);
    }

    fn queued(&self, location: u8) -> usize {
        self.row.at(self.queued_at(location)) as usize
    }

    fn slot(&self, location: u8, at: usize) -> Slot {
        unpacked_slot(self.pair(self.slot_at(location, at)))
    }

    fn add_slot(&mut self, location: u8, slot: Slot) {
        let place = self.slot_at(location, self.queued(location));
        self.add(place, packed_slot(slot), self.queued_at(location));
    }

    fn take_slot(&mut self, location: u8) -> Slot {
        unpacked_slot(self.take(self.slot_at(location, 0), self.queued_at(location)))
    }

    fn issued(&self, thread: u8) -> u8 {
        self.row.at(thread as usize) as u8
    }

    fn count_issue(&mut self, thread: u8) {
        self.row.set(thread as usize, self.row.at(thread as usize) + 1);
    }

    fn register(&self, thread: u8, register: u8) -> u32 {
        self.row.at(self.register_at(thread, register))
    }

    fn set_register(&mut self, thread: u8, register: u8, word: u32) {
        self.row.set(self.register_at(thread, register), word);
    }

    fn waiting(&self, thread: u8) -> usize {
        self.row.at(self.waiting_at(thread)) as usize
    }

    fn entry(&self, thread: u8, at: usize) -> Entry {
        unpacked_entry(self.pair(self.entry_at(thread, at)))
    }

    fn add_entry(&mut self, thread: u8, entry: Entry) {
        let place = self.entry_at(thread, self.waiting(thread));
        self.add(place, packed_entry(entry), self.waiting_at(thread));
    }

    fn take_entry(&mut self, thread: u8, at: usize) -> Entry {
        unpacked_entry(self.take(self.entry_at(thread, at), self.waiting_at(thread)))
    }
}
