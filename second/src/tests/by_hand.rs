//! Instructions and programs, written by hand.

use crate::judge::case::{Case, Instruction};
use crate::streams::layouts::{self, Layout};

pub const X: u8 = 0;
pub const Y: u8 = 1;
pub const Z: u8 = 2;

pub fn store(location: u8, word: u32) -> Instruction {
    Instruction::new(1, location, 0, word)
}

/// Of operations 2, 3, 5 and 6; those without a register have 0.
pub fn at(operation: u8, location: u8, register: u8) -> Instruction {
    Instruction::new(operation, location, register, 0)
}

pub fn load(location: u8, register: u8) -> Instruction {
    at(3, location, register)
}

pub fn exchange(location: u8, register: u8, word: u32) -> Instruction {
    Instruction::new(4, location, register, word)
}

pub fn compare(location: u8, register: u8, word: u32) -> Instruction {
    Instruction::new(9, location, register, word)
}

pub fn flush(location: u8) -> Instruction {
    at(5, location, 0)
}

pub fn flush_opt(location: u8) -> Instruction {
    at(6, location, 0)
}

pub const SFENCE: Instruction = Instruction {
    operation: 7,
    location: 0,
    register: 0,
    word: 0,
};

pub const MFENCE: Instruction = Instruction {
    operation: 8,
    ..SFENCE
};

/// Two locations, a line each; the instructions of each thread.
pub fn program(threads: &[&[Instruction]]) -> Case {
    laid_out(&Layout::own(2), threads)
}

/// The same, and x holds 5 at first.
pub fn with_five(threads: &[&[Instruction]]) -> Case {
    let mut case = program(threads);
    case.first[usize::from(X)] = 5;
    case
}

/// The locations on lines in any way.
pub fn laid_out(layout: &Layout, threads: &[&[Instruction]]) -> Case {
    let mut case = layouts::case(threads.len() as u8, layout);
    for (thread, code) in threads.iter().enumerate() {
        case.counts[thread] = code.len() as u8;
        case.code[Case::places(thread)][..code.len()].copy_from_slice(code);
    }
    case
}

/// One thread; wants by location; the thread's passed count.
pub fn asking(code: &[Instruction], wants: &[(u8, u32)], passed: u8) -> Case {
    let mut case = program(&[code]);
    want(&mut case, wants);
    case.passed[0] = passed;
    case
}

/// Words by location.
pub fn want(case: &mut Case, wants: &[(u8, u32)]) {
    for &(at, word) in wants {
        case.wanted[usize::from(at)] = true;
        case.want[usize::from(at)] = word;
    }
}
