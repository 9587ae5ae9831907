//! Sorts of frames that are told by what is lent and what is answered.

use super::frame::{Limit, Loan};
use crate::judge::ask::{REACHED, UNDECIDED, UNREACHABLE};
use crate::judge::refusal::BUFFER_TOO_SHORT;
use crate::judge::remember::STATE_WORDS;
use crate::streams::question::sight::Sight;
use crate::streams::tally::{sort, Sort};

/// A frame, and what is seen of its question.
pub struct Seen<'a> {
    pub loan: &'a Loan,
    pub sight: Sight<'a>,
}

/// The words of memory that are no whole state.
const MOST_OVER: u32 = STATE_WORDS - 1;

pub const SORTS: [Sort<fn(&Seen) -> bool>; 41] = [
    sort("100, the budget less", 500, |s| {
        is(s, REACHED) && by(s, Limit::Budget)
    }),
    sort("100, the memory less", 500, |s| {
        is(s, REACHED) && by(s, Limit::Memory)
    }),
    sort("100, both alike", 100, |s| {
        is(s, REACHED) && by(s, Limit::Both)
    }),
    sort("101, the budget less", 500, |s| {
        is(s, UNREACHABLE) && by(s, Limit::Budget)
    }),
    sort("101, the memory less", 500, |s| {
        is(s, UNREACHABLE) && by(s, Limit::Memory)
    }),
    sort("101, both alike", 100, |s| {
        is(s, UNREACHABLE) && by(s, Limit::Both)
    }),
    sort("102, the budget less", 500, |s| {
        is(s, UNDECIDED) && by(s, Limit::Budget)
    }),
    sort("102, the memory less", 500, |s| {
        is(s, UNDECIDED) && by(s, Limit::Memory)
    }),
    sort("102, both alike", 100, |s| {
        is(s, UNDECIDED) && by(s, Limit::Both)
    }),
    sort("100 at the last covered, budget", 500, |s| {
        at_last(s, REACHED, Limit::Budget)
    }),
    sort("100 at the last covered, memory", 500, |s| {
        at_last(s, REACHED, Limit::Memory)
    }),
    sort("101 at the last covered, budget", 500, |s| {
        at_last(s, UNREACHABLE, Limit::Budget)
    }),
    sort("101 at the last covered, memory", 500, |s| {
        at_last(s, UNREACHABLE, Limit::Memory)
    }),
    sort("at the last, no word more", 500, |s| {
        at_last_memory(s) && over(s) == 0
    }),
    sort("at the last, 191 words more", 500, |s| {
        at_last_memory(s) && over(s) == MOST_OVER
    }),
    sort("102, a whole number of states", 200, |s| {
        by_memory(s) && is(s, UNDECIDED) && covers(s, 1) && over(s) == 0
    }),
    sort("102, a word short of one more", 200, |s| {
        by_memory(s) && is(s, UNDECIDED) && covers(s, 1) && over(s) == MOST_OVER
    }),
    sort("102, budget 0", 100, |s| is(s, UNDECIDED) && budget(s) == 0),
    sort("102, budget 0, no memory", 50, |s| {
        is(s, UNDECIDED) && budget(s) == 0 && words(s) == 0
    }),
    sort("102, no memory", 100, |s| is(s, UNDECIDED) && words(s) == 0),
    sort("102, 191 words", 100, |s| {
        is(s, UNDECIDED) && words(s) == MOST_OVER
    }),
    sort("102, one state covered", 100, |s| {
        is(s, UNDECIDED) && s.sight.covered == 1
    }),
    sort("100, one state covered", 50, |s| {
        is(s, REACHED) && s.sight.covered == 1
    }),
    sort("101, one state covered", 15, |s| {
        is(s, UNREACHABLE) && s.sight.covered == 1
    }),
    sort("100, all that can be lent", 100, |s| {
        is(s, REACHED) && words(s) == u32::MAX
    }),
    sort("101, all that can be lent", 100, |s| {
        is(s, UNREACHABLE) && words(s) == u32::MAX
    }),
    sort("100, budget 4,294,967,295", 100, |s| {
        is(s, REACHED) && budget(s) == u32::MAX
    }),
    sort("101, budget 4,294,967,295", 100, |s| {
        is(s, UNREACHABLE) && budget(s) == u32::MAX
    }),
    sort("31, no memory", 100, |s| {
        is(s, BUFFER_TOO_SHORT) && words(s) == 0
    }),
    sort("31, memory", 500, |s| {
        is(s, BUFFER_TOO_SHORT) && words(s) > 0
    }),
    sort("31, nothing covered", 100, |s| {
        is(s, BUFFER_TOO_SHORT) && s.sight.covered == 0
    }),
    sort("refused, no memory", 100, |s| {
        s.sight.refusal != 0 && words(s) == 0
    }),
    sort("refused, memory", 100, |s| {
        s.sight.refusal != 0 && words(s) > 0
    }),
    sort("100 at state 300 or later", 40, |s| {
        is(s, REACHED) && states(s) >= 300
    }),
    sort("100 at state 1,000 or later", 10, |s| {
        is(s, REACHED) && states(s) >= 1000
    }),
    sort("100 at state 1,500 or later", 10, |s| {
        is(s, REACHED) && states(s) >= 1500
    }),
    sort("101 of 300 states or more", 100, |s| {
        is(s, UNREACHABLE) && states(s) >= 300
    }),
    sort("101 of 1,000 states or more", 40, |s| {
        is(s, UNREACHABLE) && states(s) >= 1000
    }),
    sort("101 of 5,000 states or more", 10, |s| {
        is(s, UNREACHABLE) && states(s) >= 5000
    }),
    sort("102, 300 states covered or more", 100, |s| {
        is(s, UNDECIDED) && covers(s, 300)
    }),
    sort("102, 5,000 states covered or more", 6, |s| {
        is(s, UNDECIDED) && covers(s, 5000)
    }),
];

fn is(s: &Seen, number: u8) -> bool {
    s.sight.answer.reply.number == number
}

fn by(s: &Seen, limit: Limit) -> bool {
    s.loan.limit() == limit
}

fn by_memory(s: &Seen) -> bool {
    by(s, Limit::Memory)
}

/// Decided by the last state that is covered, and not before.
fn at_last(s: &Seen, number: u8, limit: Limit) -> bool {
    is(s, number) && by(s, limit) && states(s) == s.sight.covered
}

fn at_last_memory(s: &Seen) -> bool {
    at_last(s, REACHED, Limit::Memory) || at_last(s, UNREACHABLE, Limit::Memory)
}

/// Words that are lent beside those of whole states.
fn over(s: &Seen) -> u32 {
    words(s) % STATE_WORDS
}

fn covers(s: &Seen, least: u32) -> bool {
    s.sight.covered >= least
}

fn budget(s: &Seen) -> u32 {
    s.loan.query.budget
}

fn words(s: &Seen) -> u32 {
    s.loan.words
}

/// That were looked at.
fn states(s: &Seen) -> u32 {
    s.sight.answer.reply.runs
}
