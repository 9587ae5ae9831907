//! The machine in plain Rust: a step is tested, and taken in a state that the walk has cloned (document 01,
//! "The machine's steps").

use crate::case::{Case, Operation, Operation::*, Step};
use crate::kept::{Entry, Kept, Slot};

pub trait Machine: Kept {
    fn reaches(&self, case: &Case) -> bool {
        case.wants.iter().all(|(location, word)| self.word(*location) == *word)
            && case.passed.iter().all(|(thread, least)| self.issued(*thread) >= *least)
    }

    /// May the step be taken here?
    fn is_legal(&self, case: &Case, step: Step) -> bool {
        match step {
            Step::Issue(thread) => self.may_issue(case, thread),
            Step::Move(thread, position) => self.may_move(thread, position as usize),
            Step::Persist(location) => self.queued(location) > 0,
        }
    }

    /// Takes a legal step.
    fn take(&mut self, case: &Case, step: Step) {
        match step {
            Step::Issue(thread) => self.issue(case, thread),
            Step::Move(thread, position) => self.move_entry(thread, position as usize),
            Step::Persist(location) => self.persist(location),
        }
    }

    fn may_issue(&self, case: &Case, thread: u8) -> bool {
        match self.next_operation(case, thread) {
            None => false,
            Some(Exchange(..) | Compare(..) | Mfence) => {
                self.waiting(thread) == 0 && !self.has_marker(thread)
            }
            Some(_) => true,
        }
    }

    fn next_operation(&self, case: &Case, thread: u8) -> Option<Operation> {
        let issued = self.issued(thread) as usize;
        case.threads[thread as usize].get(issued).copied()
    }

    fn issue(&mut self, case: &Case, thread: u8) {
        if let Some(operation) = self.next_operation(case, thread) {
            self.count_issue(thread);
            self.perform(thread, operation);
        }
    }

    fn perform(&mut self, thread: u8, operation: Operation) {
        match operation {
            StoreWord(location, word) => self.add_entry(thread, Entry::Store(location, word)),
            StoreRegister(location, register) => {
                let word = self.register(thread, register);
                self.add_entry(thread, Entry::Store(location, word));
            }
            Load(location, register) => {
                self.load(thread, location, register);
            }
            Exchange(location, register, word) => {
                self.load(thread, location, register);
                self.add_slot(location, Slot::Write(word));
            }
            Compare(location, register, word) => {
                let expected = self.register(thread, register);
                if self.load(thread, location, register) == expected {
                    self.add_slot(location, Slot::Write(word));
                }
            }
            Flush(location) => self.add_entry(thread, Entry::Flush(location)),
            FlushOpt(location) => self.add_entry(thread, Entry::FlushOpt(location)),
            Sfence => self.add_entry(thread, Entry::Sfence),
            Mfence => {}
        }
    }

    /// The register takes the newest word, which is given back.
    fn load(&mut self, thread: u8, location: u8, register: u8) -> u32 {
        let word = self.newest(thread, location);
        self.set_register(thread, register, word);
        word
    }

    /// The word that a load of the thread takes.
    fn newest(&self, thread: u8, location: u8) -> u32 {
        for at in (0..self.waiting(thread)).rev() {
            match self.entry(thread, at) {
                Entry::Store(stored, word) if stored == location => return word,
                _ => {}
            }
        }
        for at in (0..self.queued(location)).rev() {
            if let Slot::Write(word) = self.slot(location, at) {
                return word;
            }
        }
        self.word(location)
    }

    fn has_marker(&self, thread: u8) -> bool {
        (0..self.locations()).any(|location| {
            (0..self.queued(location))
                .any(|at| matches!(self.slot(location, at), Slot::Marker(of) if of == thread))
        })
    }

    fn may_move(&self, thread: u8, position: usize) -> bool {
        match self.entry(thread, position) {
            Entry::FlushOpt(location) => (0..position).all(|at| !self.bars(thread, at, location)),
            Entry::Store(..) => position == 0,
            Entry::Flush(location) => position == 0 && self.queued(location) == 0,
            Entry::Sfence => position == 0 && !self.has_marker(thread),
        }
    }

    /// May a flush-opt of the location not pass the entry?
    fn bars(&self, thread: u8, at: usize, location: u8) -> bool {
        match self.entry(thread, at) {
            Entry::Store(other, _) | Entry::Flush(other) => other == location,
            Entry::FlushOpt(_) => false,
            Entry::Sfence => true,
        }
    }

    fn move_entry(&mut self, thread: u8, position: usize) {
        match self.take_entry(thread, position) {
            Entry::Store(location, word) => self.add_slot(location, Slot::Write(word)),
            Entry::FlushOpt(location) => self.add_slot(location, Slot::Marker(thread)),
            Entry::Flush(_) | Entry::Sfence => {}
        }
    }

    fn persist(&mut self, location: u8) {
        if let Slot::Write(word) = self.take_slot(location) {
            self.set_word(location, word);
        }
    }
}

impl<K: Kept> Machine for K {}
