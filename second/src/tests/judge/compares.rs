//! Compares by hand: what they read, write and leave in the register, what they wait for, what they weigh.

use super::walk::check_order;
use crate::judge::ask::{question, search, End};
use crate::judge::case::{Case, Instruction, Step};
use crate::judge::form::fits;
use crate::judge::machine::judge::{judge, Verdict, LEGAL};
use crate::judge::machine::rules::check;
use crate::judge::machine::state::Held;
use crate::judge::machine::steps::{all_steps, issue, persist, printed, shift};
use crate::judge::machine::work::{full_length, work_left};
use crate::judge::writing::encode;
use crate::streams::layouts::Layout;
use crate::tests::by_hand::*;

fn run(case: &Case, steps: &[Step]) -> Verdict {
    let mut case = case.clone();
    case.set_run(steps);
    judge(&case)
}

/// Number, place, and the blocker where there is one.
fn told(case: &Case, steps: &[Step]) -> String {
    let verdict = run(case, steps);
    let blocker = verdict.blocker.map(|blocker| format!(" {blocker}"));
    format!(
        "{} {}{}",
        verdict.number,
        verdict.place,
        blocker.unwrap_or_default()
    )
}

#[test]
fn one_that_succeeds() {
    let case = program(&[&[load(Y, 0), compare(X, 0, 7)]]);
    assert_eq!(full_length(&case), Ok(3));
    let verdict = run(&case, &[issue(0), issue(0)]);
    assert_eq!((verdict.number, verdict.place), (LEGAL, 2));
    assert_eq!(verdict.state.queues[0].used(), [Held::write(X, 7)]);
    assert_eq!(
        (verdict.state.registers[0][0], verdict.state.words[0]),
        (0, 0)
    );
    assert_eq!(work_left(&case, &verdict.state), Ok(1));
    let end = run(&case, &[issue(0), issue(0), persist(0)]);
    assert_eq!((end.number, end.state.words[0]), (LEGAL, 7));
    assert_eq!(work_left(&case, &end.state), Ok(0));
}

#[test]
fn one_that_fails() {
    let case = with_five(&[&[load(Y, 0), compare(X, 0, 7)]]);
    assert_eq!(full_length(&case), Ok(3));
    let verdict = run(&case, &[issue(0), issue(0)]);
    assert_eq!((verdict.number, verdict.place), (LEGAL, 2));
    assert!(verdict.state.queues[0].used().is_empty());
    assert_eq!(
        (verdict.state.registers[0][0], verdict.state.words[0]),
        (5, 5)
    );
    assert_eq!(work_left(&case, &verdict.state), Ok(0));
    let legal = |step: &Step| check(&case, &verdict.state, step).is_ok();
    assert!(!all_steps(&case).iter().any(legal));
    assert_eq!(told(&case, &[issue(0), issue(0), persist(0)]), "29 2");
}

#[test]
fn one_that_waits_for_the_buffer() {
    let code = [load(X, 0), store(Y, 1), compare(X, 0, 7)];
    let steps = [issue(0), issue(0), issue(0)];
    assert_eq!(told(&program(&[&code]), &steps), "22 2 B0.0");
    // Loaded from y, it would fail.
    let failing = [load(Y, 0), store(Y, 1), compare(X, 0, 7)];
    assert_eq!(told(&with_five(&[&failing]), &steps), "22 2 B0.0");
    let gone = [issue(0), issue(0), shift(0, 0), issue(0)];
    assert_eq!(told(&program(&[&code]), &gone), "103 4");
    assert_eq!(told(&with_five(&[&failing]), &gone), "103 4");
}

#[test]
fn one_that_waits_for_a_marker() {
    let code = [load(Y, 0), flush_opt(Y), compare(X, 0, 7)];
    let steps = [issue(0), issue(0), shift(0, 0), issue(0)];
    assert_eq!(told(&with_five(&[&code]), &steps), "23 3 Q1.0");
    assert_eq!(told(&program(&[&code]), &steps), "23 3 Q1.0");
    // 22 comes first, and another thread's marker is not in the way.
    let both = [load(Y, 0), flush_opt(Y), store(Y, 1), compare(X, 0, 7)];
    let steps = [issue(0), issue(0), shift(0, 0), issue(0), issue(0)];
    assert_eq!(told(&with_five(&[&both]), &steps), "22 4 B0.0");
    let others = with_five(&[&[load(Y, 0), compare(X, 0, 7)], &[flush_opt(X)]]);
    let steps = [issue(0), issue(1), shift(1, 0), issue(0)];
    assert_eq!(told(&others, &steps), "103 4");
}

/// Both load y, then compare x, thread 0 with the new word 1, thread 1 with 2.
#[test]
fn two_that_race() {
    let code = [1, 2].map(|word| [load(Y, 0), compare(X, 0, word)]);
    let mut case = program(&[&code[0], &code[1]]);
    case.passed = [2, 2, 0, 0];
    let reached = |word: u32| {
        let mut case = case.clone();
        want(&mut case, &[(X, word)]);
        match search(&case, 1_000_000).end {
            End::Reached(run) => printed(&run),
            _ => String::new(),
        }
    };
    assert_eq!(reached(1), "I0 I0 I1 I1 P0");
    assert_eq!(reached(2), "I0 I1 I1 I0 P0");
    assert_eq!(reached(3), "");
    // The loser's register holds the winner's word.
    let verdict = run(&case, &[issue(0), issue(1), issue(1), issue(0)]);
    assert_eq!(verdict.state.registers[0][0], 2);
    assert_eq!(verdict.state.registers[1][0], 0);
    assert_eq!(verdict.state.queues[0].used(), [Held::write(X, 2)]);
}

/// The newest write of its location, whatever is newer on its line; not the persistent word, and not the
/// first of several.
#[test]
fn what_is_read() {
    let writes = [exchange(X, 1, 6), exchange(X, 1, 7), exchange(Y, 1, 8)];
    let compares = |word: u32| {
        let other = [load(Z, 0), compare(X, 0, 9)];
        let mut case = laid_out(&Layout::told(&[0, 0, 1]), &[&writes, &other]);
        (case.first[0], case.first[2]) = (5, word);
        let steps = [issue(0), issue(0), issue(0), issue(1), issue(1)];
        let verdict = run(&case, &steps);
        assert_eq!((verdict.number, verdict.state.registers[1][0]), (LEGAL, 7));
        verdict.state.queues[0].used()[3..].to_vec()
    };
    assert_eq!(compares(7), [Held::write(X, 9)]);
    for other in [0, 5, 6, 8, 9] {
        assert!(compares(other).is_empty());
    }
}

/// What the failed one read is what the next one expects.
#[test]
fn one_that_fails_and_is_tried_again() {
    let again = [load(Y, 3), compare(X, 3, 7), compare(X, 3, 8)];
    let case = with_five(&[&again]);
    assert_eq!(full_length(&case), Ok(5));
    let verdict = run(&case, &[issue(0); 3]);
    assert_eq!(verdict.state.queues[0].used(), [Held::write(X, 8)]);
    assert_eq!(verdict.state.registers[0], [0, 0, 0, 5]);
    // Where the first succeeds, the register keeps what was read, and the second fails.
    let verdict = run(&program(&[&again]), &[issue(0); 3]);
    assert_eq!(verdict.state.queues[0].used(), [Held::write(X, 7)]);
    assert_eq!(verdict.state.registers[0], [0, 0, 0, 7]);
}

/// The room is that of the full length, though no run is so long.
#[test]
fn the_room_of_a_question() {
    let mut case = with_five(&[&[load(Y, 0), compare(X, 0, 7)]]);
    case.passed[0] = 2;
    let file = encode(&case);
    let asked = |room: usize| {
        let mut lent = vec![0xA5; room];
        let reply = question(&file, &mut lent, 10);
        (reply.number, reply.place)
    };
    assert_eq!((asked(23), asked(24)), ((31, 0), (100, 2)));
}

/// It fails behind the other thread's exchange: such runs end one step before the full length, 5.
#[test]
fn all_runs_of_one_beside_an_exchange() {
    let case = program(&[&[load(Y, 0), compare(X, 0, 1)], &[exchange(X, 0, 2)]]);
    let succeeds = ["I0 I0", "I0 I0 I1", "I0 I0 I1 P0", "I0 I0 I1 P0 P0"];
    let persists = ["I0 I0 P0", "I0 I0 P0 I1", "I0 I0 P0 I1 P0"];
    let between = [
        "I0 I1",
        "I0 I1 I0",
        "I0 I1 I0 P0",
        "I0 I1 P0",
        "I0 I1 P0 I0",
    ];
    let before = ["I1", "I1 I0", "I1 I0 I0", "I1 I0 I0 P0", "I1 I0 P0"];
    let last = ["I1 I0 P0 I0", "I1 P0", "I1 P0 I0", "I1 P0 I0 I0"];
    let behind = [&["", "I0"], &succeeds[..], &persists, &between].concat();
    check_order(&case, &[&behind[..], &before, &last].concat());
}

#[test]
fn the_form_of_one() {
    let with = |operation, location, register, word| {
        let one = Instruction::new(operation, location, register, word);
        fits(&program(&[&[load(X, 0), load(X, 3), one]]))
    };
    assert!(with(9, 0, 0, 0) && with(9, 1, 3, u32::MAX));
    assert!(!with(9, 2, 0, 0) && !with(9, 0, 4, 0));
    assert!(!with(10, 0, 0, 0) && !with(0, 0, 0, 0));
}
