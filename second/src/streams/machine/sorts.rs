//! Sorts of frames that are told by the frame and its answer.

use super::answer::{answer, Answer};
use super::counts::changes;
use super::frame::{Job, Trial, MOST_INPUT};
use super::raw::{ENTRIES, ENTRY_BYTES};
use crate::judge::case::{Step, MOST_LOCATIONS, MOST_STEPS, MOST_THREADS};
use crate::judge::machine::fit::to_come;
use crate::judge::machine::judge::{Verdict, LEGAL};
use crate::judge::machine::rules::MOVE;
use crate::judge::machine::state::{State, QUEUE_ROOM};
use crate::judge::reading::read;
use crate::judge::refusal::UNSET_REGISTER;
use crate::judge::writing::encode;
use crate::streams::cases::fields;
use crate::streams::once;
use crate::streams::sizes::*;
use crate::streams::tally::{sort, Sort};

pub const SORTS: [Sort<fn(&Trial, &Answer) -> bool>; 50] = [
    sort("job 0", 3000, |t, _| t.job == Job::Bytes),
    sort("job 1", 2000, |t, _| t.job == Job::Case),
    sort("job 2", 6000, |_, a| a.given.is_some()),
    sort("job 4", 1500, |t, _| t.job == Job::Start),
    sort("input empty", 20, |t, _| t.input.is_empty()),
    sort("input the longest of version 1", 20, |t, _| {
        t.input.len() == LONGEST_OWN
    }),
    sort("input the longest of version 2", 30, |t, _| {
        t.input.len() == LONGEST
    }),
    sort("input of the most bytes", 20, |t, _| {
        t.input.len() == MOST_INPUT as usize
    }),
    sort("judged, all threads full", 400, |t, a| {
        let judged = matches!(a.verdict.number, LEGAL | 21..=29);
        judged && t.job != Job::Start && a.case.counts == [INSTRUCTIONS; MOST_THREADS]
    }),
    sort("legal run of the most steps", 30, |_, a| {
        legal_run(a, MOST_STEPS, MOST_STEPS)
    }),
    sort("legal run of 97 steps and more", 400, |_, a| {
        legal_run(a, once::STEPS + 1, MOST_STEPS - 1)
    }),
    sort("legal run of 1 to 96 steps", 800, |_, a| {
        legal_run(a, 1, once::STEPS)
    }),
    sort("illegal step at 0", 50, |_, a| illegal_at(a, 0, 0)),
    sort("illegal step at 1 to 31", 500, |_, a| illegal_at(a, 1, 31)),
    sort("illegal step at 32 to 95", 300, |_, a| {
        illegal_at(a, 32, once::STEPS - 1)
    }),
    sort("illegal step at 96 and above", 150, |_, a| {
        illegal_at(a, once::STEPS, MOST_STEPS - 2)
    }),
    sort("illegal step at the last index", 30, |_, a| {
        illegal_at(a, MOST_STEPS - 1, MOST_STEPS - 1)
    }),
    sort("full length the most", 300, |_, a| {
        a.full == Ok(MOST_STEPS as u32)
    }),
    sort("run to a full queue", 10, |_, a| {
        run_to(a, |s| longest(s) == QUEUE_ROOM)
    }),
    sort("run to a queue above 32", 40, |_, a| {
        run_to(a, |s| longest(s) > once::QUEUED.into())
    }),
    sort("run to a queue above 8", 150, |_, a| {
        run_to(a, |s| longest(s) > 8)
    }),
    sort("run to a full buffer", 60, |_, a| {
        run_to(a, |state| {
            state
                .buffers
                .iter()
                .any(|buffer| buffer.count == INSTRUCTIONS)
        })
    }),
    sort("move from position 8 and above", 40, |t, a| {
        moved_from(t, a, once::INSTRUCTIONS, INSTRUCTIONS - 2)
    }),
    sort("move from the last position", 20, |t, a| {
        moved_from(t, a, INSTRUCTIONS - 1, INSTRUCTIONS - 1)
    }),
    sort("run to an end", 50, |_, a| {
        a.given.is_none() && a.full != Ok(0) && a.work == Ok(0) && a.verdict.number == LEGAL
    }),
    sort("case changed, run judged", 300, |t, a| {
        t.job == Job::Case && changes(t) && a.verdict.number != 32
    }),
    sort("case changed, run refused: 32", 300, |t, a| {
        t.job == Job::Case && changes(t) && a.verdict.number == 32
    }),
    sort("case changed, start handed out", 300, |t, a| {
        t.job == Job::Start && changes(t) && a.verdict.number == LEGAL
    }),
    sort("case changed, start refused: 32", 300, |t, a| {
        t.job == Job::Start && changes(t) && a.verdict.number == 32
    }),
    sort("start with first contents", 600, |t, a| {
        t.job == Job::Start && a.verdict.number == LEGAL && a.case.first != [0; MOST_LOCATIONS]
    }),
    sort("start, a first content changed", 100, |t, a| {
        let of_first = t.job == Job::Start && (fields::FIRSTS..fields::COUNTS).contains(&t.field);
        of_first && a.verdict.number == LEGAL && t.value != 0
    }),
    sort("start: 32 despite first contents", 200, |t, a| {
        t.job == Job::Start && a.verdict.number == 32 && a.case.first != [0; MOST_LOCATIONS]
    }),
    sort("case changed, step judged", 100, |t, a| {
        a.given.is_some() && changes(t) && a.verdict.number != 32
    }),
    sort("32 for a register, a run", 80, |t, a| {
        t.job == Job::Case && unset(a)
    }),
    sort("32 for a register, a step", 80, |_, a| {
        a.given.is_some() && unset(a)
    }),
    sort("32 for a register, a start", 80, |t, a| {
        t.job == Job::Start && unset(a)
    }),
    sort("32 and 33", 100, |t, a| beats(t, a, 33..=33)),
    sort("32 and 5", 40, |t, a| beats(t, a, 5..=5)),
    sort("32 and 8", 25, |t, a| beats(t, a, 8..=8)),
    sort("32 and a rule", 100, |t, a| beats(t, a, 21..=29)),
    sort("32, else legal", 100, |t, a| beats(t, a, LEGAL..=LEGAL)),
    sort("state fits", 3000, |_, a| {
        a.given.is_some() && a.work.is_ok()
    }),
    sort("state fits, junk behind counts", 2000, |_, a| {
        a.work.is_ok() && a.given.as_ref().map_or(false, junk_behind)
    }),
    sort("state fits, junk not looked at", 1500, |_, a| {
        a.work.is_ok()
            && a.given
                .as_ref()
                .map_or(false, |state| junk_lacking(a, state))
    }),
    sort("entries' kinds above 3", 2000, |t, _| {
        entries(t).any(|entry| entry[0] > 3)
    }),
    sort("entries' bytes ignored", 2000, |t, _| {
        entries(t).any(|entry| entry[0] % 4 == 3 && entry[1] != 0)
    }),
    sort("sum of a queue just its room", 300, |_, a| {
        sums(a, |state, to_come| longest(state) + to_come == QUEUE_ROOM)
    }),
    sort("sums of queues above a room", 300, |_, a| {
        sums(a, |state, to_come| {
            let all: usize = state.queues.iter().map(|queue| queue.used().len()).sum();
            all + to_come > QUEUE_ROOM
        })
    }),
    sort("state fits, once 33: a buffer", 100, |_, a| {
        once_above(a).map_or(false, |[buffer, _]| buffer)
    }),
    sort("state fits, once 33: a queue", 100, |_, a| {
        once_above(a).map_or(false, |[_, queue]| queue)
    }),
];

fn legal_run(answer: &Answer, least: usize, most: usize) -> bool {
    let verdict = &answer.verdict;
    answer.given.is_none() && verdict.number == LEGAL && (least..=most).contains(&verdict.place)
}

fn illegal_at(answer: &Answer, least: usize, most: usize) -> bool {
    let verdict = &answer.verdict;
    let ruled = answer.given.is_none() && (21..=29).contains(&verdict.number);
    ruled && (least..=most).contains(&verdict.place)
}

/// A legal move from such a position, in a run or as a single step.
fn moved_from(trial: &Trial, answer: &Answer, least: u8, most: u8) -> bool {
    let is_such = |step: &Step| step.code == MOVE && (least..=most).contains(&step.position);
    let Verdict { number, place, .. } = answer.verdict;
    match (&trial.job, number) {
        (Job::Step(step, _), LEGAL) => is_such(step),
        (Job::Bytes | Job::Case, LEGAL | 21..=29) => answer.case.steps[..place].iter().any(is_such),
        _ => false,
    }
}

fn run_to(answer: &Answer, is: fn(&State) -> bool) -> bool {
    answer.given.is_none() && is(&answer.verdict.state)
}

fn longest(state: &State) -> usize {
    let lengths = state.queues.iter().map(|queue| queue.used().len());
    lengths.max().unwrap_or(0)
}

/// 32, and the file of the case is refused with 10.
fn unset(answer: &Answer) -> bool {
    answer.verdict.number == 32 && read(&encode(&answer.case)).number == UNSET_REGISTER
}

/// 32, and without the change of the case another number.
fn beats(trial: &Trial, given: &Answer, others: std::ops::RangeInclusive<u8>) -> bool {
    if given.given.is_none() || given.verdict.number != 32 {
        return false;
    }
    let unchanged = Trial {
        field: 0,
        ..trial.clone()
    };
    others.contains(&answer(&unchanged).verdict.number)
}

fn junk_behind(state: &State) -> bool {
    let blank = State::start(&crate::judge::case::Case::empty());
    let queues = state.queues.iter().zip(&blank.queues);
    let mut queues = queues.map(|(queue, blank)| {
        let used = queue.used().len();
        queue.places[used..] != blank.places[used..]
    });
    let buffers = state.buffers.iter().zip(&blank.buffers);
    let mut buffers = buffers.map(|(buffer, blank)| {
        let used = buffer.used().len();
        buffer.places[used..] != blank.places[used..]
    });
    queues.any(|junk| junk) || buffers.any(|junk| junk)
}

/// In words and registers that the program lacks.
fn junk_lacking(answer: &Answer, state: &State) -> bool {
    let words = &state.words[usize::from(answer.case.locations)..];
    let registers = &state.registers[usize::from(answer.case.threads)..];
    words
        .iter()
        .chain(registers.iter().flatten())
        .any(|&word| word != 0)
}

/// The bytes of the store buffers' entries in a single step's frame.
fn entries(trial: &Trial) -> std::slice::Chunks<'_, u8> {
    let bytes: &[u8] = match &trial.job {
        Job::Step(_, state) => &state[ENTRIES],
        _ => &[],
    };
    bytes.chunks(ENTRY_BYTES)
}

/// By which of its sums a fitting state did not fit before.
fn once_above(answer: &Answer) -> Option<[bool; 2]> {
    let fitting = answer.given.as_ref().filter(|_| answer.work.is_ok())?;
    once::above(&answer.case, fitting)
}

fn sums(answer: &Answer, is: fn(&State, usize) -> bool) -> bool {
    let fitting = answer.given.as_ref().filter(|_| answer.work.is_ok());
    fitting.map_or(false, |state| is(state, to_come(&answer.case, state)))
}
