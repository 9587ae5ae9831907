//! A run written out by hand, with the program that it needs: legal by construction, and the
//! machine is not asked.

use super::programs::*;
use crate::judge::case::{Case, Instruction, Step, MOST_INSTRUCTIONS};
use crate::judge::machine::blocker::Blocker;
use crate::judge::machine::rules::{COMPARE, EXCHANGE};
use crate::judge::machine::steps::{issue, persist, shift};
use crate::judge::whole::program::code;
use crate::streams::layouts::{self, Layout};
use crate::streams::random::Random;
use crate::streams::registers::{mend, takes, Registers};
use crate::streams::sizes::{LOCATIONS, THREADS};

pub struct Script {
    pub case: Case,
    pub steps: Vec<Step>,
    /// Two different threads, and two locations on different lines. Both threads' buffers and all
    /// queues are empty when the script proper starts.
    pub thread: u8,
    pub other: u8,
    pub at: u8,
    pub elsewhere: u8,
    /// Another location on the first one's line, or that one itself.
    pub neighbour: u8,
    /// Of the last step, where its maker knows it.
    pub blocker: Option<Blocker>,
}

impl Script {
    /// Where locations are to share lines, the neighbour is another location.
    pub fn new(random: &mut Random, sharing: bool) -> Script {
        let locations = random.between(2 + u8::from(sharing), LOCATIONS);
        let layout = Layout::with_lines(random, locations, 2, sharing);
        let case = layouts::case(random.between(2, THREADS), &layout);
        let (at, neighbour) = loop {
            let at = random.between(0, locations - 1);
            let neighbour = layouts::neighbour(random, &case, at);
            if !sharing || neighbour != at {
                break (at, neighbour);
            }
        };
        let thread = random.between(0, case.threads - 1);
        let mut script = Script::begun(random, case, thread, at);
        script.neighbour = random.pick(&[neighbour, if sharing { neighbour } else { at }]);
        script.preface(random, 3, 3);
        script
    }

    /// Of that thread, which has issued so many instructions at the most, and about a location on that line.
    pub fn of(random: &mut Random, thread: u8, line: u8, own: usize) -> Script {
        let lines = line.max(1) + 1;
        let locations = random.between(lines, LOCATIONS);
        let layout = Layout::with_lines(random, locations, lines, false);
        let case = layouts::case(random.between(thread.max(1) + 1, THREADS), &layout);
        let at = random.pick(&layouts::on_line(&case, line.into()));
        let mut script = Script::begun(random, case, thread, at);
        script.preface(random, own, 2);
        script
    }

    fn begun(random: &mut Random, mut case: Case, thread: u8, at: u8) -> Script {
        dress(random, &mut case);
        let other = random.between(0, case.threads - 2);
        Script {
            thread,
            other: other + u8::from(other >= thread),
            at,
            elsewhere: random.pick(&layouts::elsewhere(&case, at)),
            neighbour: layouts::neighbour(random, &case, at),
            case,
            steps: Vec::new(),
            blocker: None,
        }
    }

    /// Instructions of which nothing is left, up to so many of the thread and of each other one, most often a
    /// load first; and what bystanders leave.
    fn preface(&mut self, random: &mut Random, own: usize, others: usize) {
        let most = |script: &Script, thread| if thread == script.thread { own } else { others };
        // Without any now and then, so that a first step can be illegal.
        let loads = !random.one_in(6);
        for thread in 0..self.case.threads {
            if loads && most(self, thread) > 0 {
                let load = instruction(random, 3, self.case.locations);
                self.issue(random, thread, load);
            }
        }
        for _ in 0..random.below(10) {
            let thread = random.between(0, self.case.threads - 1);
            self.at_once(random, thread, most(self, thread));
        }
        self.bystanders(random);
    }

    /// A next instruction of the thread, and all its steps: nothing of it is left anywhere.
    pub fn at_once(&mut self, random: &mut Random, thread: u8, most: usize) {
        if usize::from(self.case.counts[usize::from(thread)]) >= most {
            return;
        }
        let operation = random.pick(&SURE);
        let made = instruction(random, operation, self.case.locations);
        self.issue(random, thread, made);
        if WAITING.contains(&operation) {
            self.shift(thread, 0);
        }
        if [1, 2, 4, 6].contains(&operation) {
            self.persist(made.location);
        }
    }

    /// Threads that the script proper does not name leave some entries in their buffers.
    fn bystanders(&mut self, random: &mut Random) {
        for thread in 0..self.case.threads {
            if thread != self.thread && thread != self.other {
                for _ in 0..random.below(4) {
                    let operation = random.pick(&[1, 2, 3, 5, 6, 7]);
                    let made = instruction(random, operation, self.case.locations);
                    self.issue(random, thread, made);
                }
            }
        }
    }

    /// Gives the thread one more instruction and issues it. It takes a register that is set; where none is, a
    /// word is stored instead, which waits as well, and a compare is an exchange, which is held back as well.
    pub fn issue(&mut self, random: &mut Random, thread: u8, mut next: Instruction) {
        let registers = Registers::behind(code(&self.case, thread.into()));
        if takes(next.operation) {
            let Instruction {
                operation,
                location,
                register,
                ..
            } = next;
            let instead = if operation == COMPARE { EXCHANGE } else { 1 };
            match registers.or_other(random, register) {
                Some(other) => next.register = other,
                None => next = instruction_at(random, instead, location),
            }
        }
        add(&mut self.case, usize::from(thread), next);
        self.issue_again(thread);
    }

    /// Issues whatever is next; perhaps nothing is.
    pub fn issue_again(&mut self, thread: u8) {
        self.steps.push(issue(thread));
    }

    pub fn shift(&mut self, thread: u8, position: u8) {
        self.steps.push(shift(thread, position));
    }

    /// The line of the script's location.
    pub fn line(&self) -> usize {
        self.case.line_of(self.at)
    }

    /// The oldest entry of the location's line.
    pub fn persist(&mut self, location: u8) {
        let line = self.case.line_of(location);
        self.steps.push(persist(line as u8));
    }

    /// One of the operations, at the script's location, issued by its thread.
    pub fn own(&mut self, random: &mut Random, operations: &[u8]) {
        let operation = random.pick(operations);
        let made = instruction_at(random, operation, self.at);
        self.issue(random, self.thread, made);
    }

    /// The same, at its neighbour, which is on the same line.
    pub fn own_beside(&mut self, random: &mut Random, operations: &[u8]) {
        let operation = random.pick(operations);
        let made = instruction_at(random, operation, self.neighbour);
        self.issue(random, self.thread, made);
    }

    /// The same, at the location on another line.
    pub fn own_elsewhere(&mut self, random: &mut Random, operations: &[u8]) {
        let operation = random.pick(operations);
        let made = instruction_at(random, operation, self.elsewhere);
        self.issue(random, self.thread, made);
    }

    /// One of the operations, anywhere, issued by its thread.
    pub fn own_anywhere(&mut self, random: &mut Random, operations: &[u8]) {
        let operation = random.pick(operations);
        let made = instruction(random, operation, self.case.locations);
        self.issue(random, self.thread, made);
    }

    /// A write or a marker in the queue of the location's line, from the thread's empty buffer.
    pub fn queue(&mut self, random: &mut Random, thread: u8, location: u8, operations: &[u8]) {
        let operation = random.pick(operations);
        let made = instruction_at(random, operation, location);
        self.issue(random, thread, made);
        if operation != 4 {
            self.shift(thread, 0);
        }
    }

    /// Instructions that the run does not come to.
    pub fn add_unissued(&mut self, random: &mut Random, spared: Option<u8>) {
        for thread in 0..self.case.threads {
            let most = MOST_INSTRUCTIONS - usize::from(self.case.counts[usize::from(thread)]);
            if spared != Some(thread) {
                for _ in 0..random.below(most + 1) {
                    let operation = random.pick(&EVERY);
                    let made = instruction(random, operation, self.case.locations);
                    add(&mut self.case, usize::from(thread), made);
                }
            }
        }
        mend(random, &mut self.case);
    }
}
