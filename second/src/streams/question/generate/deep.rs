//! Programs of great full length, asked with small budgets.

use super::queries::{decided_within, undecided};
use super::wants::{state_after, want, want_all};
use crate::judge::ask::{search, End};
use crate::judge::case::{Case, MOST_STEPS};
use crate::judge::machine::work::full_length;
use crate::streams::machine::generate::programs::{
    any, as_long_as, full_program, word, LONG, LONGEST,
};
use crate::streams::question::frame::Query;
use crate::streams::random::Random;
use crate::streams::sizes::LOCATIONS;

pub fn all(random: &mut Random) -> Vec<Vec<Query>> {
    (0..6).flat_map(|_| some(random)).collect()
}

pub fn some(random: &mut Random) -> Vec<Vec<Query>> {
    let deepest = |turn| deepest(random, if turn % 4 > 0 { &LONG } else { &LONGEST });
    let mut cases: Vec<Vec<Query>> = (0..12).map(deepest).collect();
    cases.extend((0..12).map(|_| near_the_end(random)));
    cases.extend((0..8).map(|_| too_much(random)));
    cases
}

/// The longest branch of all is the walk's first, and only its last run reaches the question.
fn deepest(random: &mut Random, operations: &[u8]) -> Vec<Query> {
    loop {
        let locations = random.between(1, LOCATIONS);
        let mut case = full_program(random, locations, operations);
        let full = full_length(&case).unwrap_or(0);
        ask_for_all(&mut case, full as usize);
        let runs = full + 1;
        if let Some(queries) = decided_within(random, &case, runs, runs) {
            return queries;
        }
    }
}

/// All words behind that run of the walk, and all that is issued there.
fn ask_for_all(case: &mut Case, turns: usize) {
    let state = state_after(case, turns);
    want_all(case, &state.words);
    case.passed = state.issued;
}

/// Long programs, and a run of the walk behind its first branch's end or before it.
fn near_the_end(random: &mut Random) -> Vec<Query> {
    let length = random.pick(&[30, 90, 120, MOST_STEPS as u32]);
    let mut case = as_long_as(random, length);
    let turns = random.pick(&[50, MOST_STEPS + 1, 150, 400]);
    let turns = random.below(turns);
    ask_for_all(&mut case, turns);
    let most = turns as u32 + 1;
    decided_within(random, &case, 1, most).unwrap_or_default()
}

/// A word that nobody stores, or too many runs before the question is reached.
fn too_much(random: &mut Random) -> Vec<Query> {
    loop {
        let mut case = any(random);
        want(&mut case, 0, word(random));
        let most = (MOST_STEPS + 4 + random.below(500)) as u32;
        let long = full_length(&case).map_or(false, |full| full >= 20);
        if long && matches!(search(&case, most).end, End::Undecided) {
            return undecided(random, &case, most);
        }
    }
}
