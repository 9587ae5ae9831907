//! A word handed from thread to thread: the later ones have to step before the earlier ones, and
//! the walk comes to such runs late.

use super::queries::decided_within;
use super::wants::want;
use crate::judge::case::{Case, Instruction, REGISTERS};
use crate::streams::layouts::{self, Layout};
use crate::streams::machine::generate::programs::{add, instruction, word};
use crate::streams::question::frame::Query;
use crate::streams::random::Random;
use crate::streams::registers::takes;

pub fn all(random: &mut Random) -> Vec<Vec<Query>> {
    let mut cases = draw(random, 24, (300, 3000));
    cases.extend(draw(random, 8, (3000, 20000)));
    cases
}

pub fn some(random: &mut Random) -> Vec<Vec<Query>> {
    draw(random, 4, (20, 1000))
}

fn draw(random: &mut Random, count: usize, (least, most): (u32, u32)) -> Vec<Vec<Query>> {
    let mut cases = Vec::new();
    while cases.len() < count {
        let case = handed(random);
        cases.extend(decided_within(random, &case, least, most));
    }
    cases
}

/// Each thread but the last takes the word from the next thread's location to its own; a compare is held
/// against the own one.
fn handed(random: &mut Random) -> Case {
    let threads = random.pick(&[2, 2, 2, 3]);
    let mut case = layouts::case(threads, &Layout::draw(random, threads));
    let last = case.threads - 1;
    for thread in 0..last {
        let take = random.pick(&[3, 3, 4, 9]);
        let register = random.between(0, REGISTERS - 1);
        let mut code = vec![
            Instruction::new(take, thread + 1, register, 0),
            Instruction::new(2, thread, register, 0),
        ];
        if takes(take) {
            code.insert(0, Instruction::new(3, thread, register, 0));
        }
        for one in code {
            add(&mut case, thread.into(), one);
        }
    }
    let handed = word(random);
    let first = random.pick(&[1, 1, 4]);
    add(
        &mut case,
        last.into(),
        Instruction::new(first, last, 0, handed),
    );
    for _ in 0..random.below(3) {
        let thread = usize::from(random.between(0, last));
        let operation = random.pick(&[3, 5, 6, 7, 8]);
        let made = instruction(random, operation, case.locations);
        add(&mut case, thread, made);
        case.passed[thread] = random.pick(&[0, case.counts[thread]]);
    }
    // Where the last location is not 0 at first, the first thread may hand on the old word.
    case.first[usize::from(last)] = random.pick(&[0, 0, 7]);
    let old = case.first[usize::from(last)];
    want(&mut case, 0, random.pick(&[handed, handed, handed, old]));
    case
}
