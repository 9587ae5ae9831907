//! Runs by construction with compares that succeed and compares that fail. Behind them all that was written
//! persists: one write more or less would break rule 29, or leave something queued.

use super::programs::{word, WAITING};
use super::script::Script;
use crate::judge::case::{Instruction, REGISTERS};
use crate::judge::machine::blocker::Blocker;
use crate::judge::machine::rules::{COMPARE, EXCHANGE};
use crate::streams::random::Random;

/// What happens at the script's location, and how many writes of its line are queued.
struct Plot<'a> {
    random: &'a mut Random,
    s: &'a mut Script,
    register: u8,
    queued: u8,
}

impl Plot<'_> {
    fn new<'a>(random: &'a mut Random, s: &'a mut Script) -> Plot<'a> {
        Plot {
            register: random.between(0, REGISTERS - 1),
            random,
            s,
            queued: 0,
        }
    }

    fn at(&mut self, thread: u8, operation: u8, location: u8, word: u32) {
        let made = Instruction::new(operation, location, self.register, word);
        self.s.issue(self.random, thread, made);
    }

    /// The other thread leaves a word there for all to see.
    fn put(&mut self, location: u8, word: u32) {
        self.at(self.s.other, EXCHANGE, location, word);
        self.queued += 1;
        if self.random.one_in(3) {
            self.persist();
        }
    }

    fn load(&mut self, thread: u8, location: u8) {
        self.at(thread, 3, location, 0);
    }

    /// With any word, which a compare that fails or is refused does not write.
    fn compare(&mut self, thread: u8) {
        let word = word(self.random);
        self.at(thread, COMPARE, self.s.at, word);
    }

    /// The register holds the word that is there.
    fn succeed(&mut self, thread: u8, word: u32) {
        self.at(thread, COMPARE, self.s.at, word);
        self.queued += 1;
    }

    fn persist(&mut self) {
        self.s.persist(self.s.at);
        self.queued -= 1;
    }

    fn persist_all(&mut self) {
        while self.queued > 0 {
            self.persist();
        }
    }

    /// The thread's register holds a word of the location; another one is there now, if it is to fail.
    fn expect(&mut self, fails: bool) {
        let (own, at) = (self.s.thread, self.s.at);
        let word = word(self.random);
        self.put(at, word);
        self.load(own, at);
        if fails {
            self.put(at, word.wrapping_add(1));
        }
    }
}

pub fn succeed_twice(random: &mut Random, s: &mut Script) {
    let (own, at) = (s.thread, s.at);
    let mut plot = Plot::new(random, s);
    for _ in 0..2 {
        if plot.random.one_in(2) {
            plot.expect(false);
        } else {
            plot.load(own, at);
        }
        let word = word(plot.random);
        plot.succeed(own, word);
    }
    plot.persist_all();
}

/// A failed compare leaves the word that it read in the register, and another word comes.
pub fn fail_twice(random: &mut Random, s: &mut Script) {
    let (own, at) = (s.thread, s.at);
    let mut plot = Plot::new(random, s);
    let word = word(plot.random);
    plot.put(at, word);
    plot.load(own, at);
    for more in 1..3 {
        plot.put(at, word.wrapping_add(more));
        plot.compare(own);
    }
    plot.persist_all();
}

/// The failed compare wrote nothing: nothing is left to persist.
pub fn fail_and_persist(random: &mut Random, s: &mut Script) {
    fail_twice(random, s);
    s.persist(s.at);
}

/// With the word that the failed compare left in the register.
pub fn fail_then_succeed(random: &mut Random, s: &mut Script) {
    let own = s.thread;
    let mut plot = Plot::new(random, s);
    plot.expect(true);
    plot.compare(own);
    let word = word(plot.random);
    plot.succeed(own, word);
    plot.persist_all();
}

/// Both threads load the word; the first to compare takes it away from the other.
pub fn race(random: &mut Random, s: &mut Script) {
    let (own, other, at) = (s.thread, s.other, s.at);
    let mut plot = Plot::new(random, s);
    let word = word(plot.random);
    plot.put(at, word);
    plot.load(own, at);
    plot.load(other, at);
    let (first, second) = plot.random.pick(&[(own, other), (other, own)]);
    plot.succeed(first, word.wrapping_add(1));
    if plot.random.one_in(2) {
        plot.persist();
    }
    plot.compare(second);
    plot.persist_all();
}

/// The neighbour's newer write is passed over; its word is another one.
pub fn past_beside(random: &mut Random, s: &mut Script) {
    let (own, at, beside) = (s.thread, s.at, s.neighbour);
    let mut plot = Plot::new(random, s);
    let word = word(plot.random);
    plot.put(at, word);
    plot.put(beside, word.wrapping_add(1));
    plot.load(own, at);
    plot.succeed(own, word.wrapping_add(2));
    plot.load(own, beside);
    plot.compare(own);
    plot.persist_all();
}

/// Before a compare that would succeed or fail; in the buffer may wait a store of the very word.
pub fn compare_waiting(random: &mut Random, s: &mut Script, fails: bool) {
    let own = s.thread;
    let mut plot = Plot::new(random, s);
    plot.expect(fails);
    let waiting = plot.random.between(1, 2);
    for _ in 0..waiting {
        if plot.random.one_in(2) {
            plot.at(own, 2, plot.s.at, 0);
        } else {
            plot.s.own_anywhere(plot.random, &WAITING);
        }
    }
    plot.compare(own);
    s.blocker = Some(Blocker::waiting(own.into(), 0));
}

/// Behind a marker on the location's line or on another.
pub fn compare_marked(random: &mut Random, s: &mut Script, fails: bool) {
    let (own, at, elsewhere) = (s.thread, s.at, s.elsewhere);
    let mut plot = Plot::new(random, s);
    plot.expect(fails);
    let marked = plot.random.pick(&[at, elsewhere]);
    let before = if marked == at { plot.queued } else { 0 };
    plot.s.queue(plot.random, own, marked, &[6]);
    plot.compare(own);
    let line = s.case.line_of(marked);
    s.blocker = Some(Blocker::queued(line, before.into()));
}
