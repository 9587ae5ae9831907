//! Programs with compares gone through whole: numbers known by hand, and machines that get a compare wrong.

use super::engines::check_broken;
use super::{check_case, check_numbers, check_walk, sentences, MOST};
use crate::judge::case::{Case, Instruction, Step};
use crate::judge::machine::effects::advance;
use crate::judge::machine::state::{Held, State};
use crate::judge::machine::steps::printed;
use crate::judge::machine::work;
use crate::judge::whole::confirm::{confirm, ANY_THREAD, WEIGHTS, WRITTEN_OUT};
use crate::judge::whole::engine::{Engine, OURS};
use crate::judge::whole::outcome::{seen, Outcome};
use crate::judge::whole::program::Program;
use crate::judge::whole::sentences::*;
use crate::tests::by_hand::{at, compare, exchange, flush, load, program, store, with_five, X, Y};
use std::collections::BTreeSet;

#[test]
fn a_compare_that_fails_ends_its_run_one_step_sooner() {
    let one = [load(Y, 0), compare(X, 0, 1)];
    let found = check_case(&with_five(&[&one]), [3, 2, 1], [1, 3]);
    assert_eq!((found.succeeded, found.failed), (0, 1));
    assert_eq!((found.unmade, found.left_alone), (1, 1));
    assert_eq!(found.failures, BTreeSet::from([1]));
    let found = check_numbers(&[&one], [4, 3, 1], [1, 4]);
    assert_eq!((found.succeeded, found.failed), (1, 0));
    assert_eq!((found.unmade, found.left_alone), (0, 0));
    // The register has 5 then, so that the second one succeeds.
    let twice = [one[0], one[1], compare(X, 0, 2)];
    let found = check_case(&with_five(&[&twice]), [5, 4, 1], [1, 5]);
    assert_eq!((found.succeeded, found.failed), (1, 1));
}

/// Whoever comes first writes; the other fails before the persist or behind it. Where both loads come first, in
/// either order, there are two places for the persist; where one thread is through before the other loads, three.
#[test]
fn two_compares_of_two_threads() {
    let code = [1, 2].map(|word| [load(Y, 0), compare(X, 0, word)]);
    let found = check_numbers(&[&code[0], &code[1]], [16, 22, 2], [14, 43]);
    assert_eq!((found.succeeded, found.failed), (4, 4));
    // Nobody but the winner made a write.
    assert_eq!((found.contended, found.unmade), (0, 2));
    assert_eq!(found.won_alone, BTreeSet::from([(0, 0), (0, 1)]));
    assert_eq!(found.failures, BTreeSet::from([1]));
}

/// The compare is the last in the thread that would write x, and it fails: x ends with the store.
#[test]
fn the_last_write_that_was_really_made() {
    let code: [&[Instruction]; 1] = [&[load(Y, 0), store(X, 1), compare(X, 0, 7)]];
    let found = check_numbers(&code, [7, 7, 1], [2, 8]);
    assert_eq!(found.memories.len(), 1);
    let program = Program::of(&program(&code));
    assert_eq!((program.compares, program.only_word(0)), (true, None));
    assert_eq!(program.pairs(), [(0, 0)]);
}

/// Where the compare fails, the 2 came before the 3; else the 2 comes last, or the 3 does, and then the end
/// differs from the first in how many failed and in nothing else.
#[test]
fn ends_of_two_lengths() {
    let late = [load(Y, 0), compare(X, 0, 1), store(X, 3), load(Y, 0)];
    let case = program(&[&late, &[store(X, 2)]]);
    let found = confirm(&OURS, &Program::of(&case), MOST);
    assert!(sentences(&found).is_empty());
    assert_eq!(found.failures, BTreeSet::from([0, 1]));
    assert_eq!((found.ends, found.memories.len()), (3, 2));
    check_walk(&program(&[&late[..3], &[exchange(X, 1, 2)]]));
    check_walk(&program(&[
        &[load(X, 0), compare(X, 0, 1)],
        &[load(Y, 0), compare(X, 0, 2)],
    ]));
}

/// Each thread behind the other: thread 1 fails behind thread 0, and writes y alone.
#[test]
fn the_run_written_out() {
    let first = [store(X, 1), flush(X)];
    let second = [load(Y, 0), compare(X, 0, 2), at(2, Y, 0)];
    let program = Program::of(&program(&[&first, &second]));
    assert_eq!(program.full, 3 + 2 + 1 + 2 + 3);
    let last = program.carried(1);
    assert_eq!(printed(&last.run), "I0 M0.0 P0 I0 M0.0 I1 I1 I1 M1.0 P1");
    assert_eq!((last.failed, &last.words[..2]), (1, &[1, 1][..]));
    assert_eq!(last.made[..2], [Some(0), Some(1)]);
    let last = program.carried(0);
    assert_eq!(printed(&last.run), "I1 I1 P0 I1 M1.0 P1 I0 M0.0 P0 I0 M0.0");
    assert_eq!((last.failed, &last.words[..2]), (0, &[1, 0][..]));
    assert_eq!(program.writers, [vec![0, 1], vec![1]]);
    assert_eq!(program.pairs(), [(0, 0), (1, 1)]);
}

fn outcome(case: &Case, state: &State, step: &Step, such: Outcome) -> Option<Instruction> {
    let found = Outcome::of(case, state, step).filter(|&found| found == such);
    found.map(|_| state.unissued(case, step.thread.into())[0])
}

fn write(case: &Case, state: &mut State, one: Instruction) {
    let write = Held::write(one.location, one.word);
    state.queues[case.line_of(one.location)].push(write);
}

/// x holds another word than the register, which was loaded from y.
fn failing() -> [Instruction; 3] {
    [load(Y, 0), exchange(X, 1, 5), compare(X, 0, 7)]
}

#[test]
fn a_failed_compare_that_writes() {
    let engine = Engine {
        advance: |case, state, step| {
            let failed = outcome(case, state, step, Outcome::Fails);
            advance(case, state, step);
            if let Some(one) = failed {
                write(case, state, one);
            }
        },
        ..OURS
    };
    let code: [&[Instruction]; 1] = [&failing()];
    check_broken(engine, &code, &[STEP, LENGTH, LAST_WRITE, ANY_THREAD]);
}

#[test]
fn a_compare_that_writes_nothing() {
    let engine = Engine {
        advance: |case, state, step| {
            let succeeds = outcome(case, state, step, Outcome::Succeeds);
            advance(case, state, step);
            if let Some(one) = succeeds {
                let queue = &mut state.queues[case.line_of(one.location)];
                let last = queue.used().len() - 1;
                queue.take(last);
            }
        },
        ..OURS
    };
    let code: [&[Instruction]; 1] = [&[load(Y, 0), compare(X, 0, 7)]];
    check_broken(
        engine,
        &code,
        &[STEP, LENGTH, LAST_WRITE, ANY_THREAD, WRITTEN_OUT],
    );
}

#[test]
fn a_compare_with_the_persistent_word() {
    let engine = Engine {
        advance: |case, state, step| {
            let next = outcome(case, state, step, Outcome::Fails);
            let held = next
                .map(|one| state.registers[usize::from(step.thread)][usize::from(one.register)]);
            let persistent = next.map(|one| state.words[usize::from(one.location)]);
            advance(case, state, step);
            if let Some(one) = next.filter(|_| held == persistent) {
                write(case, state, one);
            }
        },
        ..OURS
    };
    let code: [&[Instruction]; 1] = [&failing()];
    check_broken(engine, &code, &[STEP, LENGTH, LAST_WRITE]);
}

#[test]
fn a_compare_that_weighs_otherwise() {
    fn compares(case: &Case, state: &State) -> u32 {
        let threads = 0..usize::from(case.threads);
        let all = threads.flat_map(|thread| state.unissued(case, thread));
        all.filter(|one| one.operation == 9).count() as u32
    }
    let less = Engine {
        work: |case, state| work::sum(case, state) - compares(case, state),
        ..OURS
    };
    let more = Engine {
        work: |case, state| work::sum(case, state) + compares(case, state),
        ..OURS
    };
    for engine in [less, more] {
        check_broken(engine, &[&[load(Y, 0), compare(X, 0, 7)]], &[STEP, WEIGHTS]);
    }
}

/// What it leaves nobody can take.
#[test]
fn a_failed_compare_that_uses_up_one() {
    let engine = Engine {
        work: |case, state| {
            let issued = state.issued[0] > 2;
            work::sum(case, state) + u32::from(issued)
        },
        ..OURS
    };
    let code: [&[Instruction]; 1] = [&failing()];
    check_broken(engine, &code, &[STEP]);
}

/// Looked up as the request has it: the newest write of the location in its line's queue, else the word.
#[test]
fn what_a_compare_reads() {
    let case = with_five(&[&[load(Y, 0), compare(X, 0, 1)]]);
    let mut state = State::start(&case);
    assert_eq!((seen(&case, &state, X), seen(&case, &state, Y)), (5, 0));
    for held in [Held::write(X, 6), Held::write(X, 7), Held::marker(0)] {
        state.queues[0].push(held);
    }
    assert_eq!((seen(&case, &state, X), seen(&case, &state, Y)), (7, 0));
    state.queues[0].push(Held::write(Y, 8));
    assert_eq!(seen(&case, &state, X), 7);
}
