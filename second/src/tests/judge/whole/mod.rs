//! Programs gone through whole: numbers known by hand, and the walk's own numbers.

mod compares;
mod engines;
mod origins;

use crate::judge::case::{Case, Instruction};
use crate::judge::machine::steps::printed;
use crate::judge::walk::Walk;
use crate::judge::whole::confirm::{confirm, Found};
use crate::judge::whole::engine::OURS;
use crate::judge::whole::point::Point;
use crate::judge::whole::program::Program;
use crate::streams::layouts::Layout;
use crate::streams::machine::raw;
use crate::streams::random::Random;
use crate::streams::whole::generate::programs::{draw, BENTS, SIZES};
use crate::tests::by_hand::{
    at, compare, exchange, flush, flush_opt, laid_out, load, program, store, MFENCE, SFENCE, X, Y,
};
use std::collections::BTreeSet;

const MOST: usize = 10_000;

fn sentences(found: &Found) -> Vec<&'static str> {
    let mut all: Vec<&str> = found.faults.iter().map(|fault| fault.sentence).collect();
    all.sort_unstable();
    all
}

/// States, steps, states without a step; runs that cannot go on, all runs.
fn check_numbers(code: &[&[Instruction]], states: [u64; 3], runs: [u128; 2]) -> Found {
    check_case(&program(code), states, runs)
}

fn check_case(case: &Case, states: [u64; 3], runs: [u128; 2]) -> Found {
    let found = confirm(&OURS, &Program::of(case), MOST);
    assert!(sentences(&found).is_empty());
    assert_eq!([found.states, found.steps, found.ends], states);
    assert_eq!([found.finished_runs, found.runs], runs);
    found
}

#[test]
fn one_instruction() {
    check_numbers(&[&[]], [1, 0, 1], [1, 1]);
    check_numbers(&[&[store(X, 1)]], [4, 3, 1], [1, 4]);
    check_numbers(&[&[flush_opt(X)]], [4, 3, 1], [1, 4]);
    check_numbers(&[&[exchange(X, 0, 1)]], [3, 2, 1], [1, 3]);
    check_numbers(&[&[flush(X)]], [3, 2, 1], [1, 3]);
    check_numbers(&[&[SFENCE]], [3, 2, 1], [1, 3]);
    check_numbers(&[&[load(X, 0)]], [2, 1, 1], [1, 2]);
    check_numbers(&[&[MFENCE]], [2, 1, 1], [1, 2]);
    // Behind the load that they need.
    check_numbers(&[&[load(X, 0), at(2, X, 0)]], [5, 4, 1], [1, 5]);
    check_numbers(&[&[load(X, 0), compare(X, 0, 1)]], [4, 3, 1], [1, 4]);
}

/// The flush is issued while the store waits, while it is queued or behind that, and leaves last.
#[test]
fn a_store_and_its_flush() {
    let found = check_numbers(&[&[store(X, 1), flush(X)]], [8, 9, 1], [3, 13]);
    assert_eq!(found.memories.len(), 1);
}

/// Whichever moves first: the other one is issued first, second or behind the first move, and then
/// there are two, two or three places for the first persist. The second persist comes last.
#[test]
fn two_stores_of_two_threads() {
    let found = check_numbers(&[&[store(X, 1)], &[store(X, 2)]], [18, 24, 2], [14, 57]);
    assert_eq!((found.contended, found.told_apart), (2, 2));
    assert_eq!(found.won_alone, BTreeSet::from([(0, 0), (0, 1)]));
    assert_eq!((found.memories.len(), found.handed_on), (2, 0));
}

/// On one line the second persist comes last: before it stand the first move and persist, the second
/// issue, and the second move behind both issues and the first move, in five orders.
#[test]
fn two_stores_on_one_line() {
    let code = [store(X, 1), store(Y, 2)];
    let shared = laid_out(&Layout::told(&[0, 0]), &[&code]);
    let found = check_case(&shared, [10, 12, 1], [5, 22]);
    assert_eq!(found.shared, 1);
    // With a line each the second may persist before the first: one state and two runs to an end more.
    let apart = check_numbers(&[&code], [11, 14, 1], [7, 26]);
    assert_eq!(apart.shared, 0);
    let run = Program::of(&shared).carried(0).run;
    assert_eq!(printed(&run), "I0 M0.0 P0 I0 M0.0 P0");
}

/// The load has four places, and reads the new word at the last two of them.
#[test]
fn a_store_and_another_threads_load_of_it() {
    check_numbers(&[&[store(X, 1)], &[load(X, 0)]], [10, 11, 2], [4, 14]);
}

/// y holds the other thread's word at one of the ends.
#[test]
fn a_word_that_is_handed_on() {
    let case = program(&[&[load(X, 0), at(2, Y, 0)], &[store(X, 7)]]);
    let found = confirm(&OURS, &Program::of(&case), MOST);
    assert_eq!(
        (found.ends, found.handed_on, found.memories.len()),
        (2, 1, 2)
    );
    assert!(sentences(&found).is_empty());
}

#[test]
fn what_a_program_tells() {
    let code = [
        store(X, 1),
        flush_opt(Y),
        exchange(Y, 0, 2),
        SFENCE,
        at(2, X, 0),
    ];
    let known = Program::of(&program(&[&code, &[store(Y, 3), load(X, 1), MFENCE]]));
    assert_eq!(known.full, 3 + 3 + 2 + 2 + 3 + 3 + 1 + 1);
    assert_eq!(known.writers, [vec![0], vec![0, 1]]);
    assert_eq!(known.pairs(), [(0, 0), (1, 0), (1, 1)]);
    // x ends with a register's word, y is written by two threads.
    assert_eq!((known.only_word(0), known.only_word(1)), (None, None));
    let alone = Program::of(&program(&[&code[..4], &[load(X, 1)]]));
    assert_eq!((alone.only_word(0), alone.only_word(1)), (Some(1), Some(2)));
    assert_eq!(
        printed(&known.carried(0).run),
        "I1 M1.0 P1 I1 I1 I0 M0.0 P0 I0 M0.0 P1 I0 P1 I0 M0.0 I0 M0.0 P0"
    );
    assert!(known.words_differ());
    assert!(!Program::of(&program(&[&[store(X, 1), store(Y, 1)]])).words_differ());
}

/// Runs and states are as many as the walk's, which does not ask whether it met a state before.
fn check_walk(case: &Case) {
    let program = Program::of(case);
    let found = confirm(&OURS, &program, MOST);
    let mut states = BTreeSet::new();
    let (mut runs, mut finished) = (0, 0);
    let mut walk = Walk::new(case);
    let mut more = true;
    while more {
        let run = walk.run();
        runs += 1;
        let end = Point::behind(&OURS, case, &run);
        let failed = end.as_ref().map_or(0, |end| end.failed);
        finished += u128::from(run.len() + usize::from(failed) == program.full as usize);
        states.insert(end.map(|end| (raw::encode(&end.state), end.fixed, failed)));
        more = walk.go_on();
    }
    assert_eq!((found.runs, found.finished_runs), (runs, finished));
    assert_eq!(found.states, states.len() as u64);
    assert!(sentences(&found).is_empty());
}

#[test]
fn the_walk_has_as_many_runs_and_states() {
    let mut random = Random::new(3);
    let mut walked = 0;
    while walked < 120 {
        let size = &SIZES[random.below(SIZES.len())];
        let bent = random.pick(&BENTS);
        let case = draw(&mut random, size, bent);
        if Program::of(&case).full <= 9 {
            check_walk(&case);
            walked += 1;
        }
    }
}

/// States that differ in a queue's order alone; in the word that waits in front; in none but the
/// word that a thread fixed last.
#[test]
fn states_that_are_nearly_the_same() {
    check_walk(&program(&[&[load(X, 0), at(2, X, 0)], &[flush_opt(X)]]));
    let in_front = [load(Y, 1), load(X, 0), at(2, Y, 0), at(2, Y, 1), load(Y, 0)];
    check_walk(&program(&[&in_front, &[store(X, 1)]]));
    let fixed = [load(X, 0), at(2, Y, 0), load(Y, 0)];
    check_walk(&program(&[&fixed, &[store(X, 1), store(Y, 2)]]));
}
