//! Questions about a program: first contents, wants, passed counts.

use crate::judge::case::{Case, MOST_STEPS};
use crate::judge::machine::state::State;
use crate::judge::walk::Walk;
use crate::streams::machine::generate::programs::word;
use crate::streams::machine::generate::runs::walk;
use crate::streams::random::Random;
use std::collections::BTreeSet;

type Style = fn(&mut Random, &mut Case);

const STYLES: [Style; 11] = [
    behind_a_run,
    behind_a_run,
    behind_a_late_run,
    behind_a_late_run,
    met_last,
    met_last,
    mixed,
    mixed,
    mixed,
    passed_alone,
    |_, _| {},
];

pub fn add(random: &mut Random, case: &mut Case) {
    first_contents(random, case);
    let style = random.pick(&STYLES);
    style(random, case);
}

pub fn first_contents(random: &mut Random, case: &mut Case) {
    for location in 0..usize::from(case.locations) {
        if random.one_in(3) {
            case.first[location] = word(random);
        }
    }
}

/// What some legal run leaves, or a part of it.
fn behind_a_run(random: &mut Random, case: &mut Case) {
    let length = random.below(MOST_STEPS + 1);
    let (_, state) = walk(random, case, length);
    ask_for(random, case, &state);
}

/// What a run leaves to which the walk comes late; often it comes to no other such run before.
fn behind_a_late_run(random: &mut Random, case: &mut Case) {
    let turns = random.pick(&[10, 100, 1000]);
    let state = state_after(case, random.below(turns));
    ask_for(random, case, &state);
}

/// Of the memories that the first runs of the walk leave, the one that comes up last.
fn met_last(random: &mut Random, case: &mut Case) {
    let turns = random.pick(&[100, 400]);
    let mut met = BTreeSet::new();
    let mut last = case.first;
    let mut walk = Walk::new(case);
    for _ in 0..turns {
        if met.insert(walk.state().words) {
            last = walk.state().words;
        }
        if !walk.go_on() {
            break;
        }
    }
    want_all(case, &last);
}

/// The state behind that run of the walk, or behind its last one.
pub fn state_after(case: &Case, turns: usize) -> State {
    let mut walk = Walk::new(case);
    let mut state = walk.state().clone();
    for _ in 0..turns {
        if !walk.go_on() {
            break;
        }
        state = walk.state().clone();
    }
    state
}

/// All words of a state, or some; all issued instructions, some, or none.
fn ask_for(random: &mut Random, case: &mut Case, state: &State) {
    let (some_words, some_passed) = (random.pick(&[1, 1, 2, 3]), random.pick(&[1, 2, 4]));
    for location in 0..usize::from(case.locations) {
        if random.one_in(some_words) {
            want(case, location, state.words[location]);
        }
    }
    for thread in 0..usize::from(case.threads) {
        if random.one_in(some_passed) {
            case.passed[thread] = state.issued[thread];
        }
    }
}

/// Every location of the program is wanted.
pub fn want_all(case: &mut Case, words: &[u32]) {
    for (location, &word) in words.iter().take(case.locations.into()).enumerate() {
        want(case, location, word);
    }
}

pub fn want(case: &mut Case, location: usize, word: u32) {
    case.wanted[location] = true;
    case.want[location] = word;
}

/// For each location 0, its first content, a word that is stored somewhere, or another.
fn mixed(random: &mut Random, case: &mut Case) {
    let stored: Vec<u32> = case.code.iter().map(|one| one.word).collect();
    for location in 0..usize::from(case.locations) {
        if random.one_in(2) {
            let own: Vec<u32> = words_for(case, location);
            let (own, other) = (random.pick_some(&own).unwrap_or(0), random.pick(&stored));
            let word = random.pick(&[0, case.first[location], own, own, other]);
            want(case, location, word);
        }
    }
    if random.one_in(2) {
        passed_alone(random, case);
    }
}

/// The words that stores, exchanges and compares have for the location.
fn words_for(case: &Case, location: usize) -> Vec<u32> {
    let writes = case
        .code
        .iter()
        .filter(|one| [1, 4, 9].contains(&one.operation));
    let own = writes.filter(|one| usize::from(one.location) == location);
    own.map(|one| one.word).collect()
}

fn passed_alone(random: &mut Random, case: &mut Case) {
    for thread in 0..usize::from(case.threads) {
        if random.one_in(2) {
            case.passed[thread] = random.between(0, case.counts[thread]);
        }
    }
}
