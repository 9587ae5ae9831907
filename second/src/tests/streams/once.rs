//! What was refused for its size alone: each size at its limit, and one beyond it.

use crate::judge::case::{Case, Step};
use crate::judge::machine::state::State;
use crate::judge::machine::steps::{issue, shift};
use crate::streams::layouts::{self, Layout};
use crate::streams::once::{above, OnceCounts};
use crate::tests::by_hand::{laid_out, store, X};

/// The names of the rows that the case counts for.
fn told(case: &Case) -> Vec<String> {
    let mut counts = OnceCounts::default();
    counts.take(case);
    let rows = counts.rows("read", [0; 5]);
    let counted = rows.iter().filter(|row| row.count > 0);
    counted.map(|row| row.name.clone()).collect()
}

fn with_run(steps: &[Step]) -> Case {
    let mut case = layouts::case(1, &Layout::own(8));
    case.set_run(steps);
    case
}

#[test]
fn files_by_what_they_were_refused_with() {
    assert_eq!(told(&Case::empty()), [""; 0]);
    let own: Vec<u8> = (0..9).collect();
    let located = |layout: &Layout| told(&layouts::case(1, layout));
    assert_eq!(located(&Layout::told(&own[..8])), [""; 0]);
    assert_eq!(located(&Layout::own(9)), ["read, once 5: a location"]);
    assert_eq!(located(&Layout::told(&own)), ["read, once 3: a told line"]);
    let threads = |count| {
        told(&laid_out(
            &Layout::own(8),
            &[&[], &vec![store(X, 1); count]],
        ))
    };
    assert_eq!(threads(8), [""; 0]);
    assert_eq!(threads(9), ["read, once 7: an instruction"]);
    assert_eq!(told(&with_run(&[issue(0); 96])), [""; 0]);
    assert_eq!(told(&with_run(&[shift(0, 7); 96])), [""; 0]);
    assert_eq!(told(&with_run(&[issue(0); 97])), ["read, once 9: a step"]);
    let far = ["read, once 5: a position"];
    assert_eq!(told(&with_run(&[shift(0, 8)])), far);
    // In the 97th record the position is looked at first; the 98th was never read.
    let mut steps = [issue(0); 98];
    steps[97] = shift(0, 8);
    assert_eq!(told(&with_run(&steps)), ["read, once 9: a step"]);
    steps[96] = shift(0, 8);
    assert_eq!(told(&with_run(&steps)), far);
}

/// Of a thread with one instruction unissued.
#[test]
fn states_by_the_sum_that_did_not_fit() {
    let case = laid_out(&Layout::own(1), &[&[store(X, 1)]]);
    let sums = |waiting: u8, queued: u8| {
        let mut state = State::start(&case);
        state.buffers[0].count = waiting;
        state.queues[0].count = queued;
        above(&case, &state)
    };
    assert_eq!(sums(7, 24), Some([false, false]));
    assert_eq!(sums(7, 25), Some([false, true]));
    assert_eq!(sums(8, 23), Some([true, false]));
    let nine = laid_out(&Layout::own(9), &[&[]]);
    assert_eq!(above(&nine, &State::start(&nine)), None);
}
