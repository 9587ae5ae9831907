//! The run written out: instructions carried through one by one, and what that does to words and
//! registers if nothing ever waits. The machine is not asked.

use super::program::{is_compare, writes, writes_word};
use crate::judge::case::{Case, Instruction, Step, MOST_LOCATIONS, MOST_THREADS};
use crate::judge::machine::rules::{COMPARE, EXCHANGE};
use crate::judge::machine::state::THREAD_REGISTERS;
use crate::judge::machine::steps::{issue, persist, shift};

pub struct Carried {
    pub run: Vec<Step>,
    /// Failed compares.
    pub failed: usize,
    /// By location: the thread whose write was the last one.
    pub made: [Option<usize>; MOST_LOCATIONS],
    pub words: [u32; MOST_LOCATIONS],
    registers: [[u32; THREAD_REGISTERS]; MOST_THREADS],
}

impl Carried {
    pub fn start(case: &Case) -> Carried {
        Carried {
            run: Vec::new(),
            failed: 0,
            made: [None; MOST_LOCATIONS],
            words: case.first,
            registers: [[0; THREAD_REGISTERS]; MOST_THREADS],
        }
    }

    /// The next instruction of the thread, with every buffer and queue empty before and behind it.
    pub fn carry_through(&mut self, case: &Case, thread: usize, one: &Instruction) {
        self.run.push(issue(thread as u8));
        if [1, 2, 5, 6, 7].contains(&one.operation) {
            self.run.push(shift(thread as u8, 0));
        }
        if self.take(thread, one) || one.operation == 6 {
            let line = case.line_of(one.location);
            self.run.push(persist(line as u8));
        }
    }

    /// Whether it writes.
    fn take(&mut self, thread: usize, one: &Instruction) -> bool {
        let at = usize::from(one.location);
        let held = self.words[at];
        let register = &mut self.registers[thread][usize::from(one.register)];
        let expected = *register;
        if [3, EXCHANGE, COMPARE].contains(&one.operation) {
            *register = held;
        }
        let fails = is_compare(one) && held != expected;
        self.failed += usize::from(fails);
        if !writes(one) || fails {
            return false;
        }
        self.words[at] = if writes_word(one) { one.word } else { expected };
        self.made[at] = Some(thread);
        true
    }
}
