//! The two ways the plain walks keep a state: growing rows on the heap, and arrays of the greatest size with a
//! length.

use crate::case::{Case, INSTRUCTIONS, LOCATIONS, THREADS};
use crate::kept::{Entry, Kept, Slot};
use std::collections::VecDeque;
use std::ops::{Index, IndexMut};

/// A row of items that grows at its end and from which an item may be taken out.
pub trait Row<T>: Clone + FromIterator<T> + Index<usize, Output = T> + IndexMut<usize> {
    fn length(&self) -> usize;
    fn add(&mut self, item: T);
    fn take(&mut self, at: usize) -> T;
}

/// What a state's rows are made of.
pub trait Shape: Sized {
    type Queue: Row<Slot>;
    type Buffer: Row<Entry>;
    type Locations: Row<Location<Self::Queue>>;
    type Threads: Row<Thread<Self::Buffer>>;
}

#[derive(Clone, Copy, Default, PartialEq, Eq, Hash)]
pub struct Location<Queue> {
    word: u32,
    queue: Queue,
}

#[derive(Clone, Copy, Default, PartialEq, Eq, Hash)]
pub struct Thread<Buffer> {
    issued: u8,
    registers: [u32; 4],
    buffer: Buffer,
}

#[derive(PartialEq, Eq, Hash)]
pub struct Rows<S: Shape> {
    locations: S::Locations,
    threads: S::Threads,
}

pub type Vectors = Rows<Growing>;
pub type Arrays = Rows<Greatest>;

impl<S: Shape> Clone for Rows<S> {
    fn clone(&self) -> Self {
        Rows { locations: self.locations.clone(), threads: self.threads.clone() }
    }
}

impl<S: Shape> Kept for Rows<S> {
    fn start(case: &Case) -> Self {
        let location = |_| Location { word: 0, queue: S::Queue::from_iter([]) };
        let thread = |_| Thread { issued: 0, registers: [0; 4], buffer: S::Buffer::from_iter([]) };
        Rows {
            locations: (0..case.locations).map(location).collect(),
            threads: case.threads.iter().map(thread).collect(),
        }
    }

    fn locations(&self) -> u8 {
        self.locations.length() as u8
    }

    fn word(&self, location: u8) -> u32 {
        self.locations[location as usize].word
    }

    fn set_word(&mut self, location: u8, word: u32) {
        self.locations[location as usize].word = word;
    }

    fn queued(&self, location: u8) -> usize {
        self.locations[location as usize].queue.length()
    }

    fn slot(&self, location: u8, at: usize) -> Slot {
        self.locations[location as usize].queue[at]
    }

    fn add_slot(&mut self, location: u8, slot: Slot) {
        self.locations[location as usize].queue.add(slot);
    }

    fn take_slot(&mut self, location: u8) -> Slot {
        self.locations[location as usize].queue.take(0)
    }

    fn issued(&self, thread: u8) -> u8 {
        self.threads[thread as usize].issued
    }

    fn count_issue(&mut self, thread: u8) {
        self.threads[thread as usize].issued += 1;
    }

    fn register(&self, thread: u8, register: u8) -> u32 {
        self.threads[thread as usize].registers[register as usize]
    }

    fn set_register(&mut self, thread: u8, register: u8, word: u32) {
        self.threads[thread as usize].registers[register as usize] = word;
    }

    fn waiting(&self, thread: u8) -> usize {
        self.threads[thread as usize].buffer.length()
    }

    fn entry(&self, thread: u8, at: usize) -> Entry {
        self.threads[thread as usize].buffer[at]
    }

    fn add_entry(&mut self, thread: u8, entry: Entry) {
        self.threads[thread as usize].buffer.add(entry);
    }

    fn take_entry(&mut self, thread: u8, at: usize) -> Entry {
        self.threads[thread as usize].buffer.take(at)
    }
}

/// Idiomatic Rust: vectors, and double-ended queues for the queues.
#[derive(PartialEq, Eq, Hash)]
pub struct Growing;

impl Shape for Growing {
    type Queue = VecDeque<Slot>;
    type Buffer = Vec<Entry>;
    type Locations = Vec<Location<VecDeque<Slot>>>;
    type Threads = Vec<Thread<Vec<Entry>>>;
}

/// Arrays with lengths: a state is one piece of memory and is copied whole.
pub struct Greatest;

impl Shape for Greatest {
    type Queue = Array<Slot, { THREADS * INSTRUCTIONS }>;
    type Buffer = Array<Entry, INSTRUCTIONS>;
    type Locations = Array<Location<Self::Queue>, LOCATIONS>;
    type Threads = Array<Thread<Self::Buffer>, THREADS>;
}

impl<T: Clone> Row<T> for Vec<T> {
    fn length(&self) -> usize {
        self.len()
    }

    fn add(&mut self, item: T) {
        self.push(item);
    }

    fn take(&mut self, at: usize) -> T {
        self.remove(at)
    }
}

impl<T: Clone> Row<T> for VecDeque<T> {
    fn length(&self) -> usize {
        self.len()
    }

    fn add(&mut self, item: T) {
        self.push_back(item);
    }

    fn take(&mut self, at: usize) -> T {
        self.remove(at).expect("an item stands there")
    }
}

/// The first `length` of the items are the row.
#[derive(Clone, Copy)]
pub struct Array<T, const ROOM: usize> {
    length: u8,
    items: [T; ROOM],
}

impl<T: Copy + Default, const ROOM: usize> Default for Array<T, ROOM> {
    fn default() -> Self {
        Array { length: 0, items: [T::default(); ROOM] }
    }
}

impl<T, const ROOM: usize> Index<usize> for Array<T, ROOM> {
    type Output = T;

    fn index(&self, at: usize) -> &T {
        &self.items[at]
    }
}

impl<T, const ROOM: usize> IndexMut<usize> for Array<T, ROOM> {
    fn index_mut(&mut self, at: usize) -> &mut T {
        &mut self.items[at]
    }
}

impl<T: Copy + Default, const ROOM: usize> FromIterator<T> for Array<T, ROOM> {
    fn from_iter<I: IntoIterator<Item = T>>(items: I) -> Self {
        let mut row = Self::default();
        for item in items {
            row.add(item);
        }
        row
    }
}

impl<T: Copy + Default, const ROOM: usize> Row<T> for Array<T, ROOM> {
    fn length(&self) -> usize {
        self.length as usize
    }

    fn add(&mut self, item: T) {
        self.items[self.length as usize] = item;
        self.length += 1;
    }

    fn take(&mut self, at: usize) -> T {
        let item = self.items[at];
        self.items.copy_within(at + 1..self.length as usize, at);
        self.length -= 1;
        item
    }
}
