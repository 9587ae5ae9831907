//! Files and states that were refused for their size alone, before commits were longer: told by what they
//! were refused with, and counted where they are answered now.

use crate::judge::case::{Case, Step, TOLD_LINES};
use crate::judge::machine::fit::to_come;
use crate::judge::machine::rules::MOVE;
use crate::judge::machine::state::State;
use crate::streams::tally::{row, Row};

/// The sizes of document 01.
pub const LOCATIONS: u8 = 8;
/// Of a thread, and positions of a store buffer.
pub const INSTRUCTIONS: u8 = 8;
pub const STEPS: usize = 96;
pub const QUEUED: u8 = 32;

/// With what, and for which record, in the order in which these stand.
const REFUSALS: [&str; 5] = [
    "once 5: a location",
    "once 3: a told line",
    "once 7: an instruction",
    "once 5: a position",
    "once 9: a step",
];

/// Which of them the file of the case was, if it was one: the first faulty record decided.
fn refusal(case: &Case) -> Option<usize> {
    let steps = &case.steps[..usize::from(case.count)];
    let is_far = |step: &Step| step.code == MOVE && step.position >= INSTRUCTIONS;
    if case.locations > LOCATIONS {
        return Some(usize::from(case.version == TOLD_LINES));
    }
    if case.counts.iter().any(|&count| count > INSTRUCTIONS) {
        return Some(2);
    }
    // The range of a step is looked at before their number.
    if steps.iter().take(STEPS + 1).any(is_far) {
        return Some(3);
    }
    (steps.len() > STEPS).then_some(4)
}

/// A state of a case that was read, refused by 33 for its sums alone: of a thread's buffer, or of a queue.
pub fn above(case: &Case, state: &State) -> Option<[bool; 2]> {
    if refusal(case).is_some() {
        return None;
    }
    let waits = |thread: usize| {
        usize::from(state.buffers[thread].count) + state.unissued(case, thread).len()
    };
    let longest = state.queues.iter().map(|queue| usize::from(queue.count));
    let longest = longest.max().unwrap_or(0);
    Some([
        (0..state.buffers.len()).any(|thread| waits(thread) > INSTRUCTIONS.into()),
        longest + to_come(case, state) > QUEUED.into(),
    ])
}

/// Cases that are answered now, by what they were refused with.
#[derive(Default)]
pub struct OnceCounts {
    counts: [u64; REFUSALS.len()],
}

impl OnceCounts {
    pub fn take(&mut self, case: &Case) {
        if let Some(which) = refusal(case) {
            self.counts[which] += 1;
        }
    }

    /// Each at least so often.
    pub fn rows(&self, what: &str, leasts: [u64; REFUSALS.len()]) -> Vec<Row> {
        let named = REFUSALS.iter().zip(self.counts).zip(leasts);
        let told = |((name, count), least)| row(&format!("{what}, {name}"), count, least);
        named.map(told).collect()
    }
}
