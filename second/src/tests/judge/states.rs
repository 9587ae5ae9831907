//! States in memory by hand: what a step leaves alone, number 33.

use crate::judge::case::{Case, Step};
use crate::judge::machine::fit::fits;
use crate::judge::machine::judge::{single_step, LEGAL};
use crate::judge::machine::state::{Entry, Held, State};
use crate::judge::machine::steps::{issue, persist, shift};
use crate::judge::machine::work::work_left;
use crate::streams::layouts::Layout;
use crate::streams::machine::raw::{decode, STATE_BYTES};
use crate::tests::by_hand::{laid_out, program, store, Y};

/// A store, one thread, two locations.
fn small() -> Case {
    program(&[&[store(Y, 7)]])
}

/// Junk everywhere but in the counts.
fn junk(case: &Case) -> State {
    let mut state = decode(&[0xEE; STATE_BYTES]);
    let blank = State::start(case);
    for (queue, blank) in state.queues.iter_mut().zip(&blank.queues) {
        queue.count = blank.count;
    }
    for (buffer, blank) in state.buffers.iter_mut().zip(&blank.buffers) {
        buffer.count = blank.count;
    }
    state.issued = blank.issued;
    state
}

/// Each step on junk changes its own places and no other.
#[test]
fn steps_keep_what_they_do_not_change() {
    let case = small();
    let mut state = junk(&case);
    let step = |state: &State, step: Step, right: &State| {
        let next = single_step(&case, state.clone(), &step);
        assert_eq!(next.number, LEGAL);
        assert_eq!(next.state, *right);
    };
    let mut next = state.clone();
    next.issued[0] = 1;
    next.buffers[0].count = 1;
    next.buffers[0].places[0] = Entry::Store {
        location: 1,
        word: 7,
    };
    step(&state, issue(0), &next);
    state = next.clone();
    next.buffers[0].count = 0;
    next.buffers[0].places[0] = Entry::default();
    next.queues[1].count = 1;
    next.queues[1].places[0] = Held::write(Y, 7);
    step(&state, shift(0, 0), &next);
    state = next.clone();
    next.queues[1].count = 0;
    next.queues[1].places[0] = Held::default();
    next.words[1] = 7;
    step(&state, persist(1), &next);
    // A marker's word is moved down with it.
    state.queues[1].count = 3;
    state.queues[1].places[1] = Held { word: 5, mark: 128 };
    next = state.clone();
    next.words[1] = 7;
    next.queues[1].count = 2;
    next.queues[1].places[0] = state.queues[1].places[1];
    next.queues[1].places[1] = Held::write(Y, 9);
    next.queues[1].places[2] = Held::default();
    state.queues[1].places[2] = Held::write(Y, 9);
    step(&state, persist(1), &next);
}

/// Whether the state fits after the change, over a program of 1 thread, 2 locations, 1 store.
fn after(change: fn(&mut State)) -> bool {
    let case = small();
    let mut state = State::start(&case);
    change(&mut state);
    let fitting = fits(&case, &state);
    let number = single_step(&case, state.clone(), &persist(0)).number;
    assert_eq!(fitting, number != 33);
    assert_eq!(fitting, work_left(&case, &state) != Err(33));
    fitting
}

/// So many writes of y, at most as many as there is room for.
fn fill(state: &mut State, count: u8) {
    state.queues[1].places.fill(Held::write(Y, 0));
    state.queues[1].count = count;
}

#[test]
fn each_clause_at_its_limit_and_above() {
    assert!(after(|_| {}));
    assert!(after(|state| state.buffers[0].count = 15));
    assert!(!after(|state| state.buffers[0].count = 16));
    assert!(!after(|state| state.buffers[0].count = 255));
    assert!(!after(|state| state.buffers[1].count = 1));
    assert!(after(|state| fill(state, 63)));
    assert!(!after(|state| fill(state, 64)));
    assert!(!after(|state| state.queues[1].count = 255));
    assert!(!after(|state| state.queues[2].count = 1));
    assert!(after(|state| state.issued[0] = 1));
    assert!(!after(|state| state.issued[0] = 2));
    assert!(!after(|state| state.issued[1] = 1));
    assert!(after(|state| state.buffers[0].push(Entry::Flush(1))));
    assert!(!after(|state| state.buffers[0].push(Entry::Flush(2))));
    assert!(!after(|state| state.buffers[0].push(Entry::FlushOpt(2))));
    assert!(after(|state| state.buffers[0].push(Entry::Sfence)));
    assert!(after(|state| state.queues[0].push(Held::marker(0))));
    assert!(!after(|state| state.queues[0].push(Held::marker(1))));
    // Each queue alone; words and registers that the program lacks are not looked at.
    assert!(after(|state| {
        state.queues[0].count = 63;
        fill(state, 63);
        state.words[5] = 1;
        state.registers[3][3] = 1;
    }));
}

/// Whether the state fits that holds such a mark in the queue of that line; two threads, x and z on line
/// 0 and y on line 1.
fn held(line: usize, mark: u8) -> bool {
    let case = laid_out(&Layout::told(&[0, 1, 0]), &[&[], &[]]);
    let mut state = State::start(&case);
    state.queues[line].push(Held { word: 7, mark });
    let number = single_step(&case, state.clone(), &persist(1)).number;
    assert_eq!(fits(&case, &state), number != 33);
    number != 33
}

#[test]
fn marks_that_fit_their_queue() {
    let fitting = |line| (0..=255).filter(move |&mark| held(line, mark));
    assert_eq!(fitting(0).collect::<Vec<u8>>(), [0, 2, 128, 129]);
    assert_eq!(fitting(1).collect::<Vec<u8>>(), [1, 128, 129]);
    // There is a location 2, and no line 2.
    for line in 2..16 {
        assert_eq!(fitting(line).count(), 0);
    }
}

#[test]
fn numbers_of_a_single_step_come_in_their_order() {
    let (case, start) = (small(), State::start(&small()));
    let mut unfit = start.clone();
    unfit.issued[0] = 9;
    let mut unreadable = case.clone();
    unreadable.count = 193;
    let bad_step = Step {
        position: 1,
        ..issue(1)
    };
    let number = |case: &Case, state: &State, step: &Step| {
        let verdict = single_step(case, state.clone(), step);
        assert_eq!((verdict.place, &verdict.state), (0, state));
        verdict.number
    };
    assert_eq!(number(&unreadable, &unfit, &bad_step), 32);
    assert_eq!(number(&case, &unfit, &bad_step), 33);
    assert_eq!(number(&case, &start, &bad_step), 5);
    let unused = Step {
        position: 1,
        ..persist(0)
    };
    assert_eq!(number(&case, &start, &unused), 8);
    assert_eq!(number(&case, &start, &persist(0)), 29);
}
