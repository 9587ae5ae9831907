//! Random programs, as cases in memory.

use crate::judge::case::{Case, Instruction, MOST_THREADS, REGISTERS};
use crate::judge::machine::work::full_length;
use crate::streams::cases::generate::records::OPERATION_USES;
use crate::streams::layouts::{self, Layout};
use crate::streams::random::Random;
use crate::streams::registers::mend;
pub use crate::streams::registers::EVERY;
use crate::streams::sizes::{INSTRUCTIONS, LOCATIONS, THREADS};

/// Those whose steps do not hang on words: a compare writes or not.
pub const SURE: [u8; 9] = [1, 2, 2, 3, 4, 5, 6, 7, 8];
/// What waits in a store buffer.
pub const WAITING: [u8; 5] = [1, 2, 5, 6, 7];
/// Three steps each, but for the load that a store from a register needs.
pub const LONG: [u8; 6] = [1, 2, 2, 2, 2, 6];
/// Three steps each.
pub const LONGEST: [u8; 2] = [1, 6];
/// Mostly three steps each.
const LONGISH: [u8; 17] = [1, 1, 2, 2, 2, 2, 2, 6, 6, 6, 4, 5, 7, 3, 9, 9, 9];
/// Markers and what they stop.
pub const FENCED: [u8; 13] = [6, 6, 6, 7, 8, 4, 5, 1, 2, 5, 9, 9, 3];
/// Compares, what makes them succeed or fail, and what hands on the word that they read.
pub const COMPARING: [u8; 12] = [3, 3, 9, 9, 9, 9, 9, 1, 4, 6, 2, 2];

pub fn word(random: &mut Random) -> u32 {
    let any = random.below(1 << 32) as u32;
    let telling = random.word();
    random.pick(&[any, any, any, telling])
}

/// Of that operation; in range.
pub fn instruction(random: &mut Random, operation: u8, locations: u8) -> Instruction {
    let [location, register, with_word] = OPERATION_USES[usize::from(operation) - 1];
    let mut made = Instruction {
        operation,
        ..Instruction::default()
    };
    if location {
        made.location = random.between(0, locations - 1);
    }
    if register {
        made.register = random.between(0, REGISTERS - 1);
    }
    if with_word {
        made.word = word(random);
    }
    made
}

/// Of that operation and, where it has one, that location.
pub fn instruction_at(random: &mut Random, operation: u8, location: u8) -> Instruction {
    let mut made = instruction(random, operation, 1);
    if OPERATION_USES[usize::from(operation) - 1][0] {
        made.location = location;
    }
    made
}

/// Adds an instruction to a thread's program.
pub fn add(case: &mut Case, thread: usize, instruction: Instruction) {
    let count = usize::from(case.counts[thread]);
    case.code[Case::places(thread)][count] = instruction;
    case.counts[thread] += 1;
}

/// A program with so many instructions of each thread, its locations on lines in any way.
pub fn program(random: &mut Random, locations: u8, counts: &[u8], operations: &[u8]) -> Case {
    let layout = Layout::draw(random, locations);
    let mut case = layouts::case(counts.len() as u8, &layout);
    for (thread, &count) in counts.iter().enumerate() {
        for _ in 0..count {
            let operation = random.pick(operations);
            let made = instruction(random, operation, locations);
            add(&mut case, thread, made);
        }
    }
    mend(random, &mut case);
    case
}

/// A program with as many instructions as there can be.
pub fn full_program(random: &mut Random, locations: u8, operations: &[u8]) -> Case {
    program(random, locations, &[INSTRUCTIONS; MOST_THREADS], operations)
}

/// Any size; few locations often, so that threads meet.
pub fn any(random: &mut Random) -> Case {
    let few = random.between(1, 3);
    let many = random.between(1, LOCATIONS);
    let locations = random.pick(&[few, few, many, many, LOCATIONS]);
    let most = INSTRUCTIONS;
    let (least, most) = random.pick(&[(most, most), (most / 2, most), (0, most), (4, 8), (1, 3)]);
    let threads = random.pick(&[1, 2, 3, THREADS, THREADS]);
    let counts: Vec<u8> = (0..threads).map(|_| random.between(least, most)).collect();
    let operations: [&[u8]; 7] = [
        &EVERY, &LONG, &LONGEST, &LONGISH, &FENCED, &COMPARING, &COMPARING,
    ];
    let operations = random.pick(&operations);
    let mut case = program(random, locations, &counts, operations);
    if random.one_in(2) {
        tame(random, &mut case);
    }
    case
}

/// Few registers and few words, so that a register holds what a compare reads more often.
pub fn tame(random: &mut Random, case: &mut Case) {
    for one in case.code.iter_mut().filter(|one| one.operation > 0) {
        let [_, register, word] = OPERATION_USES[usize::from(one.operation) - 1];
        if register {
            one.register = random.pick(&[0, 0, 0, one.register]);
        }
        if word {
            one.word = random.pick(&[0, 1, 2]);
        }
    }
    mend(random, case);
}

/// A program whose full length is at least so much.
pub fn as_long_as(random: &mut Random, length: u32) -> Case {
    for _ in 0..12 {
        let case = any(random);
        if full_length(&case).map_or(false, |full| full >= length) {
            return case;
        }
    }
    let locations = random.pick(&[1, 2, LOCATIONS]);
    let long = full_program(random, locations, &LONG);
    match full_length(&long) {
        Ok(full) if full >= length && !random.one_in(8) => long,
        _ => full_program(random, locations, &LONGEST),
    }
}

/// First contents, and wants and passed counts, which the machine does not look at.
pub fn dress(random: &mut Random, case: &mut Case) {
    for location in 0..usize::from(case.locations) {
        if random.one_in(2) {
            case.first[location] = word(random);
        }
        if random.one_in(8) {
            case.wanted[location] = true;
            case.want[location] = word(random);
        }
    }
    for thread in 0..usize::from(case.threads) {
        if random.one_in(8) {
            case.passed[thread] = random.between(0, case.counts[thread]);
        }
    }
}
