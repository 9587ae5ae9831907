//! Registers that are set before they are stored or compared. Whatever makes a program that is to be read
//! mends it here; number 10 comes where it is made on purpose, or by damage.

use crate::judge::case::{Case, Instruction, REGISTERS};
use crate::judge::whole::program::code;
use crate::streams::random::Random;

/// Every operation; those that take a register's word more often, since some of them give way to what sets it.
pub const EVERY: [u8; 11] = [1, 2, 2, 3, 4, 5, 6, 7, 8, 9, 9];

/// What takes the word that its register holds: a store from it, and a compare.
pub fn takes(operation: u8) -> bool {
    [2, 9].contains(&operation)
}

/// What puts a word into its register.
pub fn sets(operation: u8) -> bool {
    [3, 4, 9].contains(&operation)
}

/// The registers that a thread has set so far.
#[derive(Clone, Copy, Default)]
pub struct Registers {
    set: [bool; REGISTERS as usize],
}

impl Registers {
    /// Behind these instructions of a thread.
    pub fn behind(code: &[Instruction]) -> Registers {
        let mut registers = Registers::default();
        code.iter()
            .for_each(|one| registers.add(one.operation, one.register));
        registers
    }

    pub fn add(&mut self, operation: u8, register: u8) {
        if sets(operation) {
            self.set[usize::from(register)] = true;
        }
    }

    pub fn has(&self, register: u8) -> bool {
        self.set[usize::from(register)]
    }

    /// The register, if it is set, or else another one that is.
    pub fn or_other(&self, random: &mut Random, register: u8) -> Option<u8> {
        if self.has(register) {
            return Some(register);
        }
        random.pick_some(&self.such(true))
    }

    /// One that is not set.
    pub fn unset(&self, random: &mut Random) -> Option<u8> {
        random.pick_some(&self.such(false))
    }

    fn such(&self, set: bool) -> Vec<u8> {
        let all = 0..REGISTERS;
        all.filter(|&one| self.has(one) == set).collect()
    }

    /// The next instruction's operation and register, so that they may stand there: where no register is set,
    /// a store from one becomes a load, and a compare an exchange, which have the same fields.
    pub fn mend(&mut self, random: &mut Random, operation: &mut u8, register: &mut u8) {
        if takes(*operation) {
            match self.or_other(random, *register) {
                Some(other) => *register = other,
                None => *operation = if *operation == 2 { 3 } else { 4 },
            }
        }
        self.add(*operation, *register);
    }
}

/// The program of each thread.
pub fn mend(random: &mut Random, case: &mut Case) {
    for thread in 0..case.counts.len() {
        let count = code(case, thread).len();
        let mut registers = Registers::default();
        for one in &mut case.code[Case::places(thread)][..count] {
            registers.mend(random, &mut one.operation, &mut one.register);
        }
    }
}
