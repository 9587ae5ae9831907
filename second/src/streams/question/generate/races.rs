//! Threads that compare one location: whoever comes first takes it away from the others, and the walk
//! finds the later threads' wins late.

use super::queries::decided_within;
use super::wants::want;
use crate::judge::case::{Case, Instruction, REGISTERS};
use crate::judge::machine::rules::COMPARE;
use crate::streams::layouts::{self, Layout};
use crate::streams::machine::generate::programs::{add, instruction};
use crate::streams::question::frame::Query;
use crate::streams::random::Random;
use crate::streams::registers::mend;

pub fn all(random: &mut Random) -> Vec<Vec<Query>> {
    let mut cases: Vec<Vec<Query>> = [1, 2]
        .iter()
        .flat_map(|&word| decided_within(random, &row(word), 1, 3000))
        .collect();
    for _ in 0..12 {
        cases.extend(some(random));
    }
    cases
}

pub fn some(random: &mut Random) -> Vec<Vec<Query>> {
    (0..16).map(|_| draw(random)).collect()
}

fn draw(random: &mut Random) -> Vec<Query> {
    loop {
        let case = race(random);
        if let Some(queries) = decided_within(random, &case, 1, 1500) {
            return queries;
        }
    }
}

/// Two threads load y and compare x with what they found, the first with the word 1, the second with 2;
/// wanted is one of these.
fn row(word: u32) -> Case {
    let mut case = layouts::case(2, &Layout::own(2));
    for thread in 0..2 {
        add(&mut case, thread, Instruction::new(3, 1, 0, 0));
        let new = thread as u32 + 1;
        add(&mut case, thread, Instruction::new(COMPARE, 0, 0, new));
    }
    case.passed = [2, 2, 0, 0];
    want(&mut case, 0, word);
    case
}

/// Each thread compares the location, behind a load of it or of the other one, and then writes that with what
/// the compare read: who failed leaves the winner's word there.
fn race(random: &mut Random) -> Case {
    let threads = random.pick(&[1, 2, 2, 2, 3]);
    let mut case = layouts::case(threads, &Layout::draw(random, 2));
    case.first[0] = random.pick(&[0, 0, 5]);
    let mut words = vec![case.first[0]];
    for thread in 0..usize::from(threads) {
        let register = random.between(0, REGISTERS - 1);
        let from = random.between(0, 1);
        add(&mut case, thread, Instruction::new(3, from, register, 0));
        words.push(thread as u32 + 1);
        let new = thread as u32 + 1;
        add(
            &mut case,
            thread,
            Instruction::new(COMPARE, 0, register, new),
        );
        if random.one_in(2) {
            add(&mut case, thread, Instruction::new(2, 1, register, 0));
        } else if random.one_in(3) {
            let operation = random.pick(&[6, 7, 8, COMPARE]);
            let made = instruction(random, operation, case.locations);
            add(&mut case, thread, made);
        }
        case.passed[thread] = random.pick(&[0, case.counts[thread], case.counts[thread]]);
    }
    mend(random, &mut case);
    for at in 0..2 {
        if at == 0 || random.one_in(2) {
            let word = random.pick(&words);
            want(&mut case, at, word);
        }
    }
    case
}
