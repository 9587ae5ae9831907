//! Sorts of frames in which locations share a line, told by the frame and its answer.

use super::answer::Answer;
use super::counts::changes;
use super::frame::{Job, Trial};
use crate::judge::case::{Case, Step};
use crate::judge::machine::judge::LEGAL;
use crate::judge::machine::rules::{check, BARRED, ISSUE, PERSIST, QUEUE_NOT_EMPTY};
use crate::judge::machine::state::{Entry, Held, State, MARKER};
use crate::judge::reading::read;
use crate::judge::whole::confirm::{has_shared, is_shared};
use crate::streams::cases::fields;
use crate::streams::layouts;
use crate::streams::tally::{sort, Sort};

pub const SHARING: [Sort<fn(&Trial, &Answer) -> bool>; 17] = [
    sort("run to a queue of two locations", 200, |_, a| {
        a.given.is_none() && has_shared(&a.verdict.state)
    }),
    sort("load past a neighbour's newer", 30, |t, a| {
        past_newer(t, a, 3)
    }),
    sort("load, neighbours' writes alone", 30, |t, a| {
        neighbours_alone(t, a, 3)
    }),
    sort("exchange past a neighbour's newer", 30, |t, a| {
        past_newer(t, a, 4)
    }),
    sort("exchange, neighbours' alone", 30, |t, a| {
        neighbours_alone(t, a, 4)
    }),
    sort("compare past a neighbour's newer", 30, |t, a| {
        past_newer(t, a, 9)
    }),
    sort("compare, neighbours' alone", 30, |t, a| {
        neighbours_alone(t, a, 9)
    }),
    sort("26 for a neighbour's entry", 50, |t, a| {
        stepped(t, a, BARRED).map_or(false, |(step, state)| barred_by_line(a, step, state))
    }),
    sort("27 for a neighbour's write", 50, |t, a| {
        stepped(t, a, QUEUE_NOT_EMPTY).map_or(false, |(step, state)| filled_by_line(a, step, state))
    }),
    sort("persist from a shared queue", 100, |t, a| {
        let persisted = stepped(t, a, LEGAL).filter(|(step, _)| step.code == PERSIST);
        persisted.map_or(false, |(step, state)| {
            is_shared(&state.queues[usize::from(step.line)])
        })
    }),
    sort("a line changed, then judged", 80, |t, a| {
        is_line_changed(t, a) && matches!(a.verdict.number, LEGAL | 21..=29 | 33)
    }),
    sort("a line changed: 32", 50, |t, a| {
        is_line_changed(t, a) && a.verdict.number == 32
    }),
    sort("33 for mark 127", 20, |t, a| {
        bears(t, a, |_, mark| mark == 127)
    }),
    sort("33 for mark 255", 20, |t, a| {
        bears(t, a, |_, mark| mark == 255)
    }),
    sort("33 for the mark of no location", 20, |t, a| {
        bears(t, a, |case, mark| mark == case.locations)
    }),
    sort("33 for the mark of no thread", 20, |t, a| {
        bears(t, a, |case, mark| mark == MARKER + case.threads)
    }),
    sort("5 for a location that is no line", 20, |t, a| {
        let named = |step: &Step| (a.case.lines..a.case.locations).contains(&step.line);
        stepped(t, a, 5).map_or(false, |(step, _)| step.code == PERSIST && named(step))
    }),
];

/// A single step that is answered so, and the state that it is given with.
fn stepped<'a>(trial: &'a Trial, answer: &'a Answer, number: u8) -> Option<(&'a Step, &'a State)> {
    match (&trial.job, &answer.given) {
        (Job::Step(step, _), Some(state)) if answer.verdict.number == number => Some((step, state)),
        _ => None,
    }
}

/// Of a legal issue of that operation that takes no store of the own buffer: the last places in the
/// line's queue of a write of its location, and of a write of another.
fn last_writes(trial: &Trial, answer: &Answer, operation: u8) -> Option<[Option<usize>; 2]> {
    let (step, state) = stepped(trial, answer, LEGAL).filter(|(step, _)| step.code == ISSUE)?;
    let thread = usize::from(step.thread);
    let next = state.unissued(&answer.case, thread).first()?;
    let own = next.location;
    let is_own = |entry: &Entry| matches!(entry, Entry::Store { location, .. } if *location == own);
    if next.operation != operation || state.buffers[thread].used().iter().any(is_own) {
        return None;
    }
    let held = state.queues[answer.case.line_of(own)].used().iter();
    let is_write = |held: &Held| held.location() == Some(own);
    let is_other = |held: &Held| held.location().map_or(false, |at| at != own);
    Some([
        held.clone().rposition(is_write),
        held.clone().rposition(is_other),
    ])
}

fn past_newer(trial: &Trial, answer: &Answer, operation: u8) -> bool {
    let last = last_writes(trial, answer, operation);
    last.map_or(false, |[own, other]| own.is_some() && other > own)
}

fn neighbours_alone(trial: &Trial, answer: &Answer, operation: u8) -> bool {
    let last = last_writes(trial, answer, operation);
    last.map_or(false, |[own, other]| own.is_none() && other.is_some())
}

/// With a line for each location, nothing would bar it.
fn barred_by_line(answer: &Answer, step: &Step, state: &State) -> bool {
    check(&layouts::apart(&answer.case), state, step).is_ok()
}

/// No write of the flush's own location is queued, but one of another.
fn filled_by_line(answer: &Answer, step: &Step, state: &State) -> bool {
    let location = match state.buffers[usize::from(step.thread)].used() {
        [Entry::Flush(location), ..] => *location,
        _ => return false,
    };
    let held = state.queues[answer.case.line_of(location)].used().iter();
    let writes: Vec<u8> = held.filter_map(|held| held.location()).collect();
    !writes.is_empty() && !writes.contains(&location)
}

/// The frame changes the line of a location.
fn is_line_changed(trial: &Trial, answer: &Answer) -> bool {
    let of_line = changes(trial) && (fields::LINE..fields::END).contains(&trial.field);
    of_line && read(&trial.input).case.line != answer.case.line
}

/// A state refused by 33, in whose queues stands such a mark.
fn bears(trial: &Trial, answer: &Answer, such: fn(&Case, u8) -> bool) -> bool {
    let refused = stepped(trial, answer, 33);
    refused.map_or(false, |(_, state)| {
        let mut held = state.queues.iter().flat_map(|queue| queue.used());
        held.any(|held| such(&answer.case, held.mark))
    })
}
