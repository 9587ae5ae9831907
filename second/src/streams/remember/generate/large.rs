//! Programs of many states, most of which have far more runs.

use super::loans::{decided, of_case};
use crate::judge::ask::End;
use crate::judge::case::{Case, Instruction, MOST_LOCATIONS};
use crate::judge::remember::recall;
use crate::judge::walk::Walk;
use crate::streams::layouts::{self, Layout};
use crate::streams::machine::generate::programs::{
    add, program, tame, COMPARING, EVERY, FENCED, LONGEST,
};
use crate::streams::question::generate::wants;
use crate::streams::random::Random;
use crate::streams::remember::frame::Loan;
use crate::streams::sizes::LOCATIONS;
use std::collections::HashSet;

/// The least and the most states that decide.
const EXTENTS: [(u32, u32); 6] = [
    (200, 1000),
    (200, 1000),
    (1000, 5000),
    (1000, 5000),
    (1000, 5000),
    (5000, 12_000),
];

/// In each extent as many that are reached as are not.
pub fn all(random: &mut Random) -> Vec<Vec<Loan>> {
    let mut cases: Vec<Vec<Loan>> = (1..=2)
        .map(|threads| of_case(random, &commits(threads)))
        .collect();
    for extent in EXTENTS {
        for turn in 0..8 {
            cases.push(draw(random, extent, turn % 2 == 0));
        }
    }
    cases
}

/// Each thread stores to x and, behind a fence, to y; wanted are the old x and a new y.
fn commits(threads: u8) -> Case {
    let mut case = layouts::case(threads, &Layout::own(2));
    for thread in 0..usize::from(threads) {
        let word = thread as u32 + 1;
        for (operation, location, word) in [(1, 0, word), (6, 0, 0), (7, 0, 0), (1, 1, word)] {
            let made = Instruction::new(operation, location, 0, word);
            add(&mut case, thread, made);
        }
    }
    wants::want(&mut case, 0, 0);
    wants::want(&mut case, 1, 1);
    case
}

/// Draws until there are so many states, and the question is reached behind a third of them, or by none.
fn draw(random: &mut Random, (least, most): (u32, u32), is_reached: bool) -> Vec<Loan> {
    loop {
        let mut case = any(random);
        wants::first_contents(random, &mut case);
        let mut words = match last_new(&case, most) {
            Some(words) => words,
            None => continue,
        };
        if !is_reached {
            // Nobody stores that.
            words[0] ^= 1 << 20;
        }
        wants::want_all(&mut case, &words);
        let found = recall(&case, most);
        let (as_wanted, least) = match found.end {
            End::Reached(_) => (is_reached, least / 3),
            _ => (!is_reached, least),
        };
        if as_wanted && found.runs >= least {
            return decided(random, &case, &found);
        }
    }
}

/// The memory that comes up last of all; none where there are more states than the most.
fn last_new(case: &Case, most: u32) -> Option<[u32; MOST_LOCATIONS]> {
    let mut walk = Walk::remembering(case);
    let mut met = HashSet::new();
    let mut last = walk.state().words;
    for _ in 0..most {
        if met.insert(walk.state().words) {
            last = walk.state().words;
        }
        if !walk.go_on() {
            return Some(last);
        }
    }
    None
}

fn any(random: &mut Random) -> Case {
    let sizes: [&[u8]; 7] = [
        &[10],
        &[4, 4],
        &[5, 3],
        &[5, 5],
        &[3, 3, 2],
        &[2, 3, 3],
        &[2, 2, 2, 2],
    ];
    let counts = random.pick(&sizes);
    let many = random.between(1, LOCATIONS);
    let locations = random.pick(&[1, 2, 2, 3, many]);
    let operations: [&[u8]; 4] = [&EVERY, &FENCED, &LONGEST, &COMPARING];
    let operations = random.pick(&operations);
    let mut case = program(random, locations, counts, operations);
    if random.one_in(2) {
        tame(random, &mut case);
    }
    case
}
