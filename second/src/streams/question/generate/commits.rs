//! Two stores to be left in order, with something between them, and threads beside.

use super::queries::decided_within;
use super::wants::want;
use crate::judge::case::{Case, Instruction};
use crate::streams::layouts::{self, Layout};
use crate::streams::machine::generate::programs::{add, instruction, instruction_at};
use crate::streams::question::frame::Query;
use crate::streams::random::Random;
use crate::streams::registers::{mend, takes};
use crate::streams::sizes::THREADS;

/// Between the stores: each operation and whether it is at the first store's location.
const BETWEEN: [&[(u8, bool)]; 16] = [
    &[],
    &[(5, true)],
    &[(6, true)],
    &[(6, true), (7, true)],
    &[(6, true), (8, true)],
    &[(6, true), (4, true)],
    &[(6, true), (4, false)],
    &[(6, true), (9, true)],
    &[(6, true), (9, false)],
    &[(6, false), (7, true)],
    &[(7, true), (6, true)],
    &[(6, true), (7, true), (8, true)],
    &[(7, true)],
    &[(8, true)],
    &[(5, false)],
    &[(3, true)],
];

pub fn all(random: &mut Random) -> Vec<Vec<Query>> {
    (0..8).flat_map(|_| some(random)).collect()
}

pub fn some(random: &mut Random) -> Vec<Vec<Query>> {
    BETWEEN
        .iter()
        .map(|between| draw(random, between))
        .collect()
}

fn draw(random: &mut Random, between: &[(u8, bool)]) -> Vec<Query> {
    loop {
        let case = commit(random, between);
        if let Some(queries) = decided_within(random, &case, 1, 1500) {
            return queries;
        }
    }
}

fn commit(random: &mut Random, between: &[(u8, bool)]) -> Case {
    let locations = random.between(2, 3);
    let sharing = random.one_in(2);
    let layout = Layout::with_lines(random, locations, 1, sharing);
    let mut case = layouts::case(random.between(1, THREADS), &layout);
    let thread = usize::from(random.between(0, case.threads - 1));
    let valid = random.between(1, case.locations - 1);
    if between.iter().any(|&(operation, _)| takes(operation)) {
        let load = instruction(random, 3, locations);
        add(&mut case, thread, load);
    }
    add(&mut case, thread, Instruction::new(1, 0, 0, 500));
    for &(operation, first) in between {
        let location = if first { 0 } else { valid };
        let made = instruction_at(random, operation, location);
        add(&mut case, thread, made);
    }
    if random.one_in(2) {
        add(&mut case, thread, Instruction::new(1, valid, 0, 1));
        want(&mut case, valid.into(), 1);
    }
    if random.one_in(2) {
        case.first[0] = random.nonzero_word();
    }
    let (before, after) = (case.first[0], random.pick(&[0, 500]));
    let limit = random.pick(&[before, before, before, after]);
    want(&mut case, 0, limit);
    case.passed[thread] = random.pick(&[0, 0, case.counts[thread] - 1, case.counts[thread]]);
    beside(random, &mut case, thread);
    mend(random, &mut case);
    case
}

/// Some other threads have an instruction too, and the load that it may need.
fn beside(random: &mut Random, case: &mut Case, thread: usize) {
    for other in 0..usize::from(case.threads) {
        if other != thread && random.one_in(2) {
            let operation = random.pick(&[3, 4, 5, 6, 7, 8, 9]);
            if takes(operation) {
                let load = instruction(random, 3, case.locations);
                add(case, other, load);
            }
            let made = instruction(random, operation, case.locations);
            add(case, other, made);
            case.passed[other] = random.between(0, case.counts[other]);
        }
    }
}
