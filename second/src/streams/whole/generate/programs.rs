//! Programs that are small enough to go through all their states.

use crate::judge::case::{Case, Instruction, MOST_THREADS, REGISTERS};
use crate::judge::machine::rules::COMPARE;
use crate::judge::whole::program::{code, writes, writes_word};
use crate::streams::layouts::{self, Layout};
use crate::streams::machine::generate::programs::{add, instruction, instruction_at, FENCED, LONG};
use crate::streams::random::Random;
use crate::streams::registers::{mend, sets, takes};

pub struct Size {
    pub threads: u8,
    /// The most instructions of a thread.
    pub most: u8,
    pub locations: u8,
}

const fn size(threads: u8, most: u8, locations: u8) -> Size {
    Size {
        threads,
        most,
        locations,
    }
}

pub const SIZES: [Size; 5] = [
    size(2, 3, 2),
    size(3, 2, 2),
    size(1, 6, 3),
    size(2, 3, 3),
    size(4, 1, 2),
];

/// Up to some 100,000 states: a few of these.
pub const LARGE: [Size; 2] = [size(3, 3, 2), size(4, 2, 2)];

/// All operations.
const MIXED: [u8; 21] = [
    1, 1, 2, 2, 2, 2, 3, 3, 3, 4, 4, 5, 5, 6, 6, 7, 7, 8, 8, COMPARE, COMPARE,
];
/// Those that hand words on.
const HANDING: [u8; 8] = [1, 2, 2, 2, 2, 3, 3, 4];
/// Compares, what makes them succeed or fail, and what hands on the word that they read.
const COMPARING: [u8; 11] = [3, 3, COMPARE, COMPARE, COMPARE, COMPARE, 1, 4, 6, 2, 2];

/// What is made of a program behind its drawing.
pub type Bent = fn(&mut Random, &mut Case);

pub const BENTS: [Bent; 5] = [|_, _| {}, contended, alone, idle, handed];

pub fn draw(random: &mut Random, size: &Size, bent: Bent) -> Case {
    let layout = Layout::draw(random, size.locations);
    let mut case = layouts::case(size.threads, &layout);
    let operations: [&[u8]; 7] = [&MIXED, &MIXED, &HANDING, &HANDING, &LONG, &LONG, &FENCED];
    let operations = random.pick(&operations);
    fill(random, &mut case, size, operations, 1);
    few_registers(random, &mut case);
    bent(random, &mut case);
    mend(random, &mut case);
    set_words(random, &mut case);
    case
}

/// A program with a compare at the least, and so with what sets its register.
pub fn draw_comparing(random: &mut Random, size: &Size) -> Case {
    let size = &Size {
        most: size.most.max(2),
        ..*size
    };
    let layout = Layout::draw(random, size.locations);
    let mut case = layouts::case(size.threads, &layout);
    fill(random, &mut case, size, &COMPARING, 2);
    compared(random, &mut case);
    few_registers(random, &mut case);
    mend(random, &mut case);
    set_words(random, &mut case);
    case
}

/// Instructions of every thread, of the first so many at the least.
fn fill(random: &mut Random, case: &mut Case, size: &Size, operations: &[u8], least: u8) {
    for thread in 0..usize::from(size.threads) {
        let any = random.between(0, size.most);
        let count = random.pick(&[size.most, size.most, any]);
        for _ in 0..count.max(if thread == 0 { least } else { 0 }) {
            let operation = random.pick(operations);
            let made = instruction(random, operation, size.locations);
            add(case, thread, made);
        }
    }
}

/// In a thread the last instruction is a compare; the one before it loads or writes the same location, more
/// often than not, and always where nothing else there has a register to be set.
fn compared(random: &mut Random, case: &mut Case) {
    let at = random.between(0, case.locations - 1);
    let thread = thread_of(random, &case.counts, 2).unwrap_or(0);
    let last = code(case, thread).len() - 1;
    let all = &mut case.code[Case::places(thread)];
    all[last] = instruction_at(random, COMPARE, at);
    if !random.one_in(4) {
        let before = random.pick(&[3, 3, 1, 4, COMPARE]);
        all[last - 1] = instruction_at(random, before, at);
    }
    let has_register = |one: &Instruction| takes(one.operation) || sets(one.operation);
    if !all[..last].iter().any(has_register) {
        let before = random.pick(&[3, 4]);
        all[last - 1] = instruction_at(random, before, at);
    }
}

/// A register that was loaded is stored or compared more often.
fn few_registers(random: &mut Random, case: &mut Case) {
    for one in &mut case.code {
        if [2, 3, 4, COMPARE].contains(&one.operation) {
            one.register = random.pick(&[0, 0, 0, one.register]);
        }
    }
}

/// Words and first contents, all different and not 0: a word tells whose write it is.
fn set_words(random: &mut Random, case: &mut Case) {
    let mut used = vec![0];
    let mut fresh = |random: &mut Random| loop {
        let word = random.word();
        if !used.contains(&word) {
            used.push(word);
            return word;
        }
    };
    for one in case.code.iter_mut().filter(|one| writes_word(one)) {
        one.word = fresh(random);
    }
    let with_firsts = random.one_in(2);
    for first in &mut case.first[..usize::from(case.locations)] {
        if with_firsts && random.one_in(2) {
            *first = fresh(random);
        }
    }
}

/// A thread with at least so many instructions.
fn thread_of(random: &mut Random, counts: &[u8], least: u8) -> Option<usize> {
    let threads = 0..counts.len();
    let threads: Vec<usize> = threads.filter(|&one| counts[one] >= least).collect();
    random.pick_some(&threads)
}

fn replace(random: &mut Random, case: &mut Case, thread: usize, operations: &[u8], at: u8) {
    let place = random.below(case.counts[thread].into());
    let operation = random.pick(operations);
    case.code[Case::places(thread)][place] = instruction_at(random, operation, at);
}

/// All writes of a location but those of one thread go to another location.
fn divert(case: &mut Case, at: u8, but: Option<usize>) {
    let elsewhere = (at + 1) % case.locations;
    for thread in (0..MOST_THREADS).filter(|&thread| Some(thread) != but) {
        for one in &mut case.code[Case::places(thread)] {
            if writes(one) && one.location == at {
                one.location = elsewhere;
            }
        }
    }
}

/// Most threads write one location.
fn contended(random: &mut Random, case: &mut Case) {
    let at = random.between(0, case.locations - 1);
    for thread in 0..usize::from(case.threads) {
        if case.counts[thread] > 0 && !random.one_in(8) {
            replace(random, case, thread, &[1, 1, 2, 4], at);
        }
    }
}

/// One thread alone writes a location, and words only.
fn alone(random: &mut Random, case: &mut Case) {
    let at = random.between(0, case.locations - 1);
    let own = thread_of(random, &case.counts, 1).unwrap_or(0);
    divert(case, at, Some(own));
    for one in &mut case.code[Case::places(own)] {
        if [2, COMPARE].contains(&one.operation) && one.location == at {
            *one = Instruction::new(1, at, 0, 0);
        }
    }
    replace(random, case, own, &[1, 1, 4], at);
}

/// Nobody writes a location; it may be loaded and flushed.
fn idle(random: &mut Random, case: &mut Case) {
    let at = random.between(0, case.locations - 1);
    divert(case, at, None);
}

/// A thread takes a word from one location to another, and another thread, if any, writes it.
fn handed(random: &mut Random, case: &mut Case) {
    let taker = match thread_of(random, &case.counts, 2) {
        Some(taker) => taker,
        None => return,
    };
    let from = random.between(0, case.locations - 1);
    let to = (from + 1) % case.locations;
    let mut others = case.counts;
    others[taker] = 0;
    if let Some(giver) = thread_of(random, &others, 1) {
        replace(random, case, giver, &[1, 1, 4], from);
    }
    let last = code(case, taker).len() - 1;
    let place = random.below(last);
    let register = random.between(0, REGISTERS - 1);
    let take = random.pick(&[3, 3, 4]);
    let taking = &mut case.code[Case::places(taker)];
    taking[place] = Instruction::new(take, from, register, 0);
    taking[last] = Instruction::new(2, to, register, 0);
}
