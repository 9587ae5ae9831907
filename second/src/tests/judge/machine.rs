//! Runs by hand: the rows of document 01 that judge a run, loads, fences and work left.

use crate::judge::case::{Case, Instruction, Step};
use crate::judge::machine::judge::{judge, judge_bytes, single_step, Verdict, LEGAL};
use crate::judge::machine::state::{Entry, Held, State};
use crate::judge::machine::steps::{issue, persist, shift};
use crate::judge::machine::work::{full_length, work_left};
use crate::judge::reading::read;
use crate::streams::cases::generate::valid::ROW;
use crate::streams::machine::generate::runs::runs_for_tests;
use crate::streams::random::Random;
use crate::tests::by_hand::*;

fn run(case: &Case, steps: &[Step]) -> Verdict {
    let mut case = case.clone();
    case.set_run(steps);
    judge(&case)
}

fn told(case: &Case, steps: &[Step]) -> (u8, usize) {
    let verdict = run(case, steps);
    (verdict.number, verdict.place)
}

#[test]
fn a_flush_opt_passes_a_store_elsewhere_and_not_one_of_its_own() {
    let steps = [issue(0), issue(0), shift(0, 1)];
    let elsewhere = program(&[&[store(Y, 500), flush_opt(X)]]);
    assert_eq!(told(&elsewhere, &steps), (LEGAL, 3));
    let own = program(&[&[store(X, 500), flush_opt(X)]]);
    assert_eq!(told(&own, &steps), (26, 2));
    let behind_flush = program(&[&[flush(X), flush_opt(X)]]);
    assert_eq!(told(&behind_flush, &steps), (26, 2));
    let behind_sfence = program(&[&[SFENCE, flush_opt(X)]]);
    assert_eq!(told(&behind_sfence, &steps), (26, 2));
    let behind_flush_opt = program(&[&[flush_opt(X), flush_opt(X)]]);
    assert_eq!(told(&behind_flush_opt, &steps), (LEGAL, 3));
    let no_flush_opt = program(&[&[store(Y, 500), store(X, 1)]]);
    assert_eq!(told(&no_flush_opt, &steps), (25, 2));
}

#[test]
fn fences_wait_for_the_buffer_and_then_for_markers() {
    let case = program(&[&[store(X, 500), exchange(Y, 0, 1)]]);
    assert_eq!(told(&case, &[issue(0), issue(0)]), (22, 1));
    let case = program(&[&[flush_opt(X), MFENCE]]);
    assert_eq!(told(&case, &[issue(0), shift(0, 0), issue(0)]), (23, 2));
    assert_eq!(told(&case, &[issue(0), issue(0)]), (22, 1));
    let gone = [issue(0), shift(0, 0), persist(X), issue(0)];
    assert_eq!(told(&case, &gone), (LEGAL, 4));
    let both = program(&[&[flush_opt(X), store(Y, 1), MFENCE]]);
    let steps = [issue(0), shift(0, 0), issue(0), issue(0)];
    assert_eq!(told(&both, &steps), (22, 3));
    let others = program(&[&[MFENCE], &[flush_opt(X), store(Y, 1)]]);
    let steps = [issue(1), shift(1, 0), issue(1), issue(0)];
    assert_eq!(told(&others, &steps), (LEGAL, 4));
}

#[test]
fn a_flush_waits_for_another_threads_marker() {
    let case = program(&[&[flush(X)], &[flush_opt(X)]]);
    let steps = [issue(1), shift(1, 0), issue(0), shift(0, 0)];
    assert_eq!(told(&case, &steps), (27, 3));
    let gone = [issue(1), shift(1, 0), issue(0), persist(X), shift(0, 0)];
    assert_eq!(told(&case, &gone), (LEGAL, 5));
}

#[test]
fn an_sfence_waits_for_its_own_threads_markers() {
    let case = program(&[&[flush_opt(X), SFENCE], &[flush_opt(X), SFENCE]]);
    let own = [issue(0), issue(0), shift(0, 0), shift(0, 0)];
    assert_eq!(told(&case, &own), (28, 3));
    let gone = [issue(0), issue(0), shift(0, 0), persist(X), shift(0, 0)];
    assert_eq!(told(&case, &gone), (LEGAL, 5));
    // 25 before 28: the sfence does not come first.
    let behind = program(&[&[flush_opt(X), store(Y, 1), SFENCE]]);
    let steps = [issue(0), shift(0, 0), issue(0), issue(0), shift(0, 1)];
    assert_eq!(told(&behind, &steps), (25, 4));
    // Issued is not finished.
    let alone = run(&case, &[issue(0), issue(0), shift(0, 0)]);
    assert_eq!(alone.state.issued, [2, 0, 0, 0]);
    assert_eq!(alone.state.buffers[0].used(), [Entry::Sfence]);
    let others = program(&[&[SFENCE], &[flush_opt(X)]]);
    let steps = [issue(1), shift(1, 0), issue(0), shift(0, 0)];
    assert_eq!(told(&others, &steps), (LEGAL, 4));
}

#[test]
fn nothing_to_take() {
    let case = program(&[&[store(X, 500)]]);
    assert_eq!(told(&case, &[issue(0), issue(0)]), (21, 1));
    assert_eq!(told(&case, &[issue(0), shift(0, 1)]), (24, 1));
    assert_eq!(told(&case, &[shift(0, 0)]), (24, 0));
    let steps = [issue(0), persist(X), issue(0)];
    let verdict = run(&case, &steps);
    assert_eq!((verdict.number, verdict.place), (29, 1));
    assert_eq!(verdict.state.issued[0], 1);
    assert_eq!(told(&case, &[]), (LEGAL, 0));
}

#[test]
fn loads_look_into_the_buffer_then_the_queue_then_the_word() {
    let code = [store(X, 1), store(X, 2), store(Y, 9), flush_opt(X)];
    let others = [load(X, 0), load(X, 1), load(Y, 2)];
    let mut case = program(&[&[&code[..], &[load(X, 3)]].concat(), &others]);
    case.first[..2].copy_from_slice(&[70, 80]);
    let own = run(&case, &[issue(0); 5]);
    assert_eq!(own.state.registers[0], [0, 0, 0, 2]);
    // The other thread sees the word, then the newest write of the queue, markers passed over.
    let mut steps = vec![issue(1)];
    steps.extend([issue(0); 4]);
    steps.extend([shift(0, 0); 4]);
    steps.extend([issue(1), issue(0), persist(X), issue(1)]);
    let verdict = run(&case, &steps);
    assert_eq!((verdict.number, verdict.place), (LEGAL, 13));
    assert_eq!(verdict.state.registers[1], [70, 2, 9, 0]);
    assert_eq!(verdict.state.registers[0], [0, 0, 0, 2]);
    assert_eq!(verdict.state.words[..2], [1, 80]);
    let held = [Held::write(X, 2), Held::marker(0)];
    assert_eq!(verdict.state.queues[0].used(), held);
}

#[test]
fn exchanges_and_stores_of_registers() {
    let code = [exchange(X, 2, 5), exchange(X, 3, 6), at(2, Y, 3)];
    let mut case = program(&[&code]);
    case.first[0] = 4;
    let verdict = run(&case, &[issue(0), issue(0), issue(0), shift(0, 0)]);
    assert_eq!(verdict.state.registers[0], [0, 0, 4, 5]);
    assert_eq!(verdict.state.words[0], 4);
    let written = [Held::write(X, 5), Held::write(X, 6)];
    assert_eq!(verdict.state.queues[0].used(), written);
    assert_eq!(verdict.state.queues[1].used(), [Held::write(Y, 5)]);
}

#[test]
fn full_lengths_of_the_rows() {
    let row = read(&ROW).case;
    assert_eq!(full_length(&row), Ok(6));
    assert_eq!(work_left(&row, &State::start(&row)), Ok(6));
    let length = |middle: &[Instruction]| {
        let code = [&[store(X, 500)], middle, &[store(Y, 1)]].concat();
        full_length(&program(&[&code]))
    };
    assert_eq!(length(&[flush(X)]), Ok(8));
    assert_eq!(length(&[flush_opt(X)]), Ok(9));
    assert_eq!(length(&[flush_opt(X), SFENCE]), Ok(11));
    assert_eq!(length(&[exchange(X, 0, 1), load(X, 0), MFENCE]), Ok(10));
    assert_eq!(length(&[load(X, 0), compare(X, 0, 1)]), Ok(9));
    let most = [store(X, 1); 16];
    let full = full_length(&program(&[&most, &most, &most, &most]));
    assert_eq!(full, Ok(192));
}

#[test]
fn reading_and_32_stop_the_judge() {
    let empty = State::start(&Case::empty());
    let verdict = judge_bytes(&ROW[..45]);
    assert_eq!((verdict.number, verdict.place), (1, 41));
    assert_eq!(verdict.state, empty);
    let mut case = read(&ROW).case;
    case.first[0] = 7;
    case.locations = 17;
    let verdict = judge(&case);
    assert_eq!((verdict.number, verdict.place), (32, 0));
    assert_eq!(verdict.state, empty);
    assert_eq!(full_length(&case), Err(32));
}

/// Every step of a legal run lowers the work left by one, a failed compare by two, and it ends with none
/// left. A compare fails where it leaves its line's queue as long as it was.
#[test]
fn steps_lower_the_work_left_by_their_cost() {
    let mut compares = [0; 2];
    for (case, steps) in runs_for_tests(&mut Random::new(11), 300) {
        let mut state = State::start(&case);
        let mut left = full_length(&case).unwrap_or(0);
        assert!(left <= 192 && steps.len() <= left as usize);
        for step in steps {
            let is_compare = |one: &Instruction| step.code == 0 && one.operation == 9;
            let next = state.unissued(&case, step.thread.into()).first().copied();
            let compare = next.filter(is_compare);
            let queued =
                |state: &State| compare.map(|one| state.queues[case.line_of(one.location)].count);
            let before = queued(&state);
            let next = single_step(&case, state, &step);
            assert_eq!(next.number, LEGAL);
            state = next.state;
            let fails = compare.is_some() && before == queued(&state);
            left -= 1 + u32::from(fails);
            assert_eq!(work_left(&case, &state), Ok(left));
            compares[usize::from(fails)] += usize::from(compare.is_some());
        }
        assert_eq!(left, 0);
    }
    assert!(compares.iter().all(|&count| count > 40), "{compares:?}");
}
