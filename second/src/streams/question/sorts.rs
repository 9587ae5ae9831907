//! Sorts of questions that are told by the frame and its answer.

use super::sight::Sight;
use crate::judge::ask::{REACHED, RECORD, UNDECIDED, UNREACHABLE};
use crate::judge::case::{MOST_STEPS, MOST_THREADS};
use crate::judge::machine::rules::COMPARE;
use crate::judge::machine::work::full_length;
use crate::judge::reading::read;
use crate::judge::refusal::BUFFER_TOO_SHORT;
use crate::judge::whole::outcome::Outcome::{Fails, Succeeds};
use crate::streams::once;
use crate::streams::sizes::INSTRUCTIONS;
use crate::streams::tally::{sort, Sort};
use crate::streams::wire::MOST_ROOM;

const MOST: usize = MOST_ROOM as usize;
/// The least room for the greatest full length.
const FULL: usize = RECORD * MOST_STEPS;

/// Whether it is told of a frame.
pub type Told = fn(&Sight) -> bool;

/// All sorts of the question's stream.
pub fn sorts() -> impl Iterator<Item = &'static Sort<Told>> {
    OWN.iter().chain(&SHARED)
}

static OWN: [Sort<Told>; 13] = [
    sort("31, budget 0", 50, |s| short(s) && budget(s) == 0),
    sort("31, budget 4,294,967,295", 50, |s| {
        short(s) && budget(s) == u32::MAX
    }),
    sort("refused, budget 0", 50, |s| {
        s.refusal != 0 && budget(s) == 0
    }),
    sort("budget 0", 500, |s| asked(s) && budget(s) == 0),
    sort("100, budget 1", 50, |s| reached(s) && budget(s) == 1),
    sort("101, budget 1", 20, |s| {
        is(s, UNREACHABLE) && budget(s) == 1
    }),
    sort("102, budget 1", 200, |s| is(s, UNDECIDED) && budget(s) == 1),
    sort("100, budget 4,294,967,295", 200, |s| {
        reached(s) && budget(s) == u32::MAX
    }),
    sort("101, budget 4,294,967,295", 200, |s| {
        is(s, UNREACHABLE) && budget(s) == u32::MAX
    }),
    sort("100 at run 300 or later", 100, |s| {
        reached(s) && runs(s) >= 300
    }),
    sort("100 at run 3,000 or later", 20, |s| {
        reached(s) && runs(s) >= 3000
    }),
    sort("101 after 300 runs or more", 200, |s| {
        is(s, UNREACHABLE) && runs(s) >= 300
    }),
    sort("101 after 3,000 runs or more", 20, |s| {
        is(s, UNREACHABLE) && runs(s) >= 3000
    }),
];

/// Whichever walk is asked: rooms, lengths, and what is decided.
pub static SHARED: [Sort<Told>; 53] = [
    sort("100, room just enough", 200, |s| {
        reached(s) && room(s) == s.need
    }),
    sort("100, bytes behind", 200, |s| reached(s) && room(s) > s.need),
    sort("100, room the most", 20, |s| reached(s) && room(s) == MOST),
    sort("101, with room", 200, |s| is(s, UNREACHABLE) && room(s) > 0),
    sort("102, with room", 200, |s| is(s, UNDECIDED) && room(s) > 0),
    sort("31, room one byte short", 200, |s| {
        short(s) && room(s) + 1 == s.need
    }),
    sort("31, room 0", 200, |s| short(s) && room(s) == 0),
    sort("refused, room 0", 100, |s| s.refusal != 0 && room(s) == 0),
    sort("refused, room the most", 100, |s| {
        s.refusal != 0 && room(s) == MOST
    }),
    sort("refused, where 31 would be", 100, |s| {
        s.refusal != 0 && short_before(s)
    }),
    sort("refused at a step", 50, |s| s.refusal != 0 && at_step(s)),
    sort("full length 0, room 0", 30, |s| {
        asked(s) && s.need == 0 && room(s) == 0
    }),
    sort("full length the most", 100, |s| asked(s) && s.need == FULL),
    sort("full length the most, just enough", 50, |s| {
        asked(s) && s.need == FULL && room(s) == FULL
    }),
    sort("full length the most, a byte less", 20, |s| {
        short(s) && s.need == FULL && room(s) + 1 == FULL
    }),
    sort("full length above 96", 200, |s| {
        asked(s) && s.need > once::STEPS * RECORD
    }),
    sort("100 in 0 steps", 50, |s| reached_in(s, 0, 0)),
    sort("100 in 1 to 9 steps", 200, |s| reached_in(s, 1, 9)),
    sort("100 in 10 to 29 steps", 100, |s| reached_in(s, 10, 29)),
    sort("100 in 30 to 96 steps", 100, |s| {
        reached_in(s, 30, once::STEPS)
    }),
    sort("100 in 97 steps and more", 100, |s| {
        reached_in(s, once::STEPS + 1, MOST_STEPS - 1)
    }),
    sort("100 in the most steps", 50, |s| {
        reached_in(s, MOST_STEPS, MOST_STEPS)
    }),
    sort("100 in less than full length", 200, |s| {
        reached(s) && place(s) * RECORD < s.need
    }),
    sort("steps in the input", 200, |s| asked(s) && s.case.count > 0),
    sort("the most steps in the input", 20, |s| {
        asked(s) && usize::from(s.case.count) == MOST_STEPS
    }),
    sort("decided, all threads full", 100, |s| {
        decided(s) && s.case.counts == [INSTRUCTIONS; MOST_THREADS]
    }),
    sort("decided, a thread full, others not", 20, |s| {
        decided(s) && s.case.counts.contains(&INSTRUCTIONS) && s.case.counts.contains(&0)
    }),
    sort("100, not wanted and not 0", 200, |s| {
        reached(s) && left_open(s)
    }),
    sort("100, wanted 0, first content not", 50, |s| {
        reached(s) && wanted(s, |first, want| want == 0 && first != 0)
    }),
    sort("101, a want of 0", 100, |s| {
        is(s, UNREACHABLE) && wanted(s, |_, want| want == 0)
    }),
    sort("100, wanted its first content", 100, |s| {
        reached(s) && wanted(s, |first, want| want == first && want != 0)
    }),
    sort("nothing asked", 20, |s| asked(s) && !wants(s) && !passes(s)),
    sort("100, passed counts alone", 40, |s| {
        reached(s) && !wants(s) && passes(s)
    }),
    sort("100, passed counts and wants", 200, |s| {
        reached(s) && wants(s) && passes(s)
    }),
    sort("101, passed counts and wants", 200, |s| {
        is(s, UNREACHABLE) && wants(s) && passes(s)
    }),
    sort("decided, 1 thread", 200, |s| {
        decided(s) && s.case.threads == 1
    }),
    sort("decided, 2 threads", 200, |s| {
        decided(s) && s.case.threads == 2
    }),
    sort("decided, 3 threads", 200, |s| {
        decided(s) && s.case.threads == 3
    }),
    sort("decided, 4 threads", 200, |s| {
        decided(s) && s.case.threads == 4
    }),
    sort("decided, store word", 200, |s| decided(s) && has(s, 1)),
    sort("decided, store register", 200, |s| decided(s) && has(s, 2)),
    sort("decided, load", 200, |s| decided(s) && has(s, 3)),
    sort("decided, exchange", 200, |s| decided(s) && has(s, 4)),
    sort("decided, flush", 200, |s| decided(s) && has(s, 5)),
    sort("decided, flush-opt", 200, |s| decided(s) && has(s, 6)),
    sort("decided, sfence", 200, |s| decided(s) && has(s, 7)),
    sort("decided, mfence", 200, |s| decided(s) && has(s, 8)),
    sort("decided, compare", 200, |s| decided(s) && has(s, COMPARE)),
    sort("101, compare", 100, |s| {
        is(s, UNREACHABLE) && has(s, COMPARE)
    }),
    sort("100, a compare succeeds", 200, |s| {
        s.outcomes.contains(&Succeeds)
    }),
    sort("100, a compare fails", 200, |s| s.outcomes.contains(&Fails)),
    sort("100, one fails, one succeeds", 100, |s| {
        s.outcomes.contains(&Fails) && s.outcomes.contains(&Succeeds)
    }),
    sort("100 at the end, a compare failed", 50, |s| {
        let failed = s.outcomes.iter().filter(|&&one| one == Fails).count();
        reached(s) && failed > 0 && (place(s) + failed) * RECORD == s.need
    }),
];

fn is(s: &Sight, number: u8) -> bool {
    s.answer.reply.number == number
}

fn reached(s: &Sight) -> bool {
    is(s, REACHED)
}

fn decided(s: &Sight) -> bool {
    reached(s) || is(s, UNREACHABLE)
}

/// The walk was asked.
fn asked(s: &Sight) -> bool {
    decided(s) || is(s, UNDECIDED)
}

fn short(s: &Sight) -> bool {
    is(s, BUFFER_TOO_SHORT)
}

fn room(s: &Sight) -> usize {
    s.answer.lent.len()
}

fn budget(s: &Sight) -> u32 {
    s.query.budget
}

fn place(s: &Sight) -> usize {
    s.answer.reply.place
}

fn runs(s: &Sight) -> u32 {
    s.answer.reply.runs
}

fn reached_in(s: &Sight, least: usize, most: usize) -> bool {
    reached(s) && (least..=most).contains(&place(s))
}

/// The records before the faulty one are a case for which the buffer is too short.
fn short_before(s: &Sight) -> bool {
    let before = read(&s.query.input[..place(s)]);
    let full = full_length(&before.case).unwrap_or(0) as usize;
    before.number == 0 && room(s) < RECORD * full
}

fn at_step(s: &Sight) -> bool {
    let kind = s.query.input.get(place(s) + 2..place(s) + 4);
    kind == Some(&[6, 0])
}

/// A location that is not wanted ends with a word that is not 0.
fn left_open(s: &Sight) -> bool {
    let pairs = |words: &[u32]| {
        words
            .iter()
            .zip(&s.case.wanted)
            .any(|(&word, &wanted)| word != 0 && !wanted)
    };
    s.end.as_ref().map_or(false, |end| pairs(&end.words))
}

/// Some wanted location has such a first content and want.
fn wanted(s: &Sight, such: fn(u32, u32) -> bool) -> bool {
    let case = &s.case;
    (0..case.wanted.len()).any(|at| case.wanted[at] && such(case.first[at], case.want[at]))
}

fn wants(s: &Sight) -> bool {
    s.case.wanted.contains(&true)
}

fn passes(s: &Sight) -> bool {
    s.case.passed.iter().any(|&least| least > 0)
}

fn has(s: &Sight, operation: u8) -> bool {
    s.case.code.iter().any(|one| one.operation == operation)
}
