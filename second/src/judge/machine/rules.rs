//! Whether a step is legal, or the rule that it breaks and what is in its way. The case is readable,
//! the state fits it, and the step is in range.

use super::blocker::{Blocker, Stop};
use super::state::{Entry, Held, State};
use crate::judge::case::{Case, Step};
use crate::judge::refusal::require;

pub const ISSUE: u8 = 0;
pub const MOVE: u8 = 1;
pub const PERSIST: u8 = 2;

pub const STORE_REGISTER: u8 = 2;
pub const EXCHANGE: u8 = 4;
pub const MFENCE: u8 = 8;
pub const COMPARE: u8 = 9;

/// What is not issued before all that came before it has left; a compare whether it succeeds or fails.
const BARRIERS: [u8; 3] = [EXCHANGE, MFENCE, COMPARE];

pub const NONE_LEFT: u8 = 21;
pub const BUFFER_NOT_EMPTY: u8 = 22;
pub const MARKER_BEFORE_FENCE: u8 = 23;
pub const NO_ENTRY: u8 = 24;
pub const NOT_FIRST: u8 = 25;
pub const BARRED: u8 = 26;
pub const QUEUE_NOT_EMPTY: u8 = 27;
pub const MARKER_BEFORE_SFENCE: u8 = 28;
pub const QUEUE_EMPTY: u8 = 29;

pub fn check(case: &Case, state: &State, step: &Step) -> Result<(), Stop> {
    match step.code {
        ISSUE => check_issue(case, state, step.thread.into()),
        MOVE => check_move(case, state, step.thread.into(), step.position.into()),
        _ => {
            let queue = &state.queues[usize::from(step.line)];
            Ok(require(!queue.used().is_empty(), QUEUE_EMPTY)?)
        }
    }
}

fn check_issue(case: &Case, state: &State, thread: usize) -> Result<(), Stop> {
    let next = state.unissued(case, thread).first().ok_or(NONE_LEFT)?;
    if BARRIERS.contains(&next.operation) {
        let waiting = state.buffers[thread].used();
        clear(first_waiting(thread, waiting, |_| true), BUFFER_NOT_EMPTY)?;
        clear(first_marker(state, thread), MARKER_BEFORE_FENCE)?;
    }
    Ok(())
}

fn check_move(case: &Case, state: &State, thread: usize, position: usize) -> Result<(), Stop> {
    let waiting = state.buffers[thread].used();
    let entry = *waiting.get(position).ok_or(NO_ENTRY)?;
    if position > 0 {
        let line = match entry {
            Entry::FlushOpt(location) => case.line_of(location),
            _ => return Err(NOT_FIRST.into()),
        };
        let before = &waiting[..position];
        let bar = first_waiting(thread, before, |one| bars(case, one, line));
        clear(bar, BARRED)?;
    }
    match entry {
        Entry::Flush(location) => {
            let oldest = first_queued(state, case.line_of(location), |_| true);
            clear(oldest, QUEUE_NOT_EMPTY)
        }
        Entry::Sfence => clear(first_marker(state, thread), MARKER_BEFORE_SFENCE),
        Entry::Store { .. } | Entry::FlushOpt(_) => Ok(()),
    }
}

/// A check: the rule where something is in the way.
fn clear(blocker: Option<Blocker>, rule: u8) -> Result<(), Stop> {
    match blocker {
        Some(_) => Err(Stop {
            number: rule,
            blocker,
        }),
        None => Ok(()),
    }
}

/// Whether a flush-opt of a location on the line must stay behind the entry.
pub fn bars(case: &Case, entry: Entry, line: usize) -> bool {
    match entry {
        Entry::Store { location, .. } | Entry::Flush(location) => case.line_of(location) == line,
        Entry::FlushOpt(_) => false,
        Entry::Sfence => true,
    }
}

/// Of the oldest entries of a thread's buffer.
fn first_waiting(thread: usize, from: &[Entry], such: impl Fn(Entry) -> bool) -> Option<Blocker> {
    let position = from.iter().position(|&entry| such(entry))?;
    Some(Blocker::waiting(thread, position))
}

fn first_queued(state: &State, line: usize, such: impl Fn(Held) -> bool) -> Option<Blocker> {
    let mut held = state.queues[line].used().iter();
    let position = held.position(|&held| such(held))?;
    Some(Blocker::queued(line, position))
}

/// A marker of the thread: by line, then by position; which one is older does not matter.
fn first_marker(state: &State, thread: usize) -> Option<Blocker> {
    let mut lines = 0..state.queues.len();
    lines.find_map(|line| first_queued(state, line, |held| held.is_marker_of(thread)))
}
