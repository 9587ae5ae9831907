//! Runs by construction: for each rule, for two rules where they meet, and legal ones that come
//! near to a rule; and what locations on one line do to one another.

use super::beside::*;
use super::compares::*;
use super::near::*;
use super::programs::WAITING;
use super::runs::{any_step, judged};
use super::script::Script;
use super::{by_chance, by_turns};
use crate::judge::case::{MOST_STEPS, POSITIONS};
use crate::judge::machine::blocker::Blocker;
use crate::judge::machine::judge::LEGAL;
use crate::streams::machine::frame::Trial;
use crate::streams::machine::marks::with_blocker;
use crate::streams::random::Random;

type Maker = fn(&mut Random, &mut Script);

/// Family, its maker, the number: a rule that the last step breaks, or 103.
const MAKERS: [(&str, Maker, u8); 23] = [
    ("script: 21", |_, s| s.issue_again(s.thread), 21),
    ("script: 21, entries waiting", none_left_waiting, 21),
    ("script: 22", fence_waiting, 22),
    ("script: 22+23", fence_waiting_marked, 22),
    ("script: 23", fence_marked, 23),
    ("script: 24", beyond_the_last, 24),
    ("script: 25", not_a_flush_opt, 25),
    ("script: 25+26", not_a_flush_opt_same_line, 25),
    ("script: 25+27", flush_behind, 25),
    ("script: 25+28", sfence_behind, 25),
    ("script: 26", barred, 26),
    ("script: 27", flush_queue_filled, 27),
    ("script: 28", sfence_marked, 28),
    ("script: 29", persist_nothing, 29),
    ("legal: each done at once", at_once, LEGAL),
    ("legal: passes other lines", pass_others, LEGAL),
    ("legal: passes a flush-opt", pass_flush_opts, LEGAL),
    ("legal: flush, other queues", flush_others_filled, LEGAL),
    ("legal: fence, other's marker", fence_others_marker, LEGAL),
    ("legal: sfence, other's marker", sfence_others_marker, LEGAL),
    ("legal: fence, marker gone", fence_marker_gone, LEGAL),
    (
        "legal: exchange, queue filled",
        exchange_queue_filled,
        LEGAL,
    ),
    (
        "legal: sfence before flush-opt",
        sfence_before_flush_opt,
        LEGAL,
    ),
];

/// The neighbour is another location on the line.
const SHARING: [(&str, Maker, u8); 6] = [
    ("script: 26, a neighbour's", barred_beside, 26),
    ("script: 27, a neighbour's", flush_queue_filled, 27),
    ("script: 29, a neighbour's gone", persist_beside_gone, 29),
    ("legal: a neighbour's persist", persist_beside, LEGAL),
    ("legal: load past a neighbour's", load_past_beside, LEGAL),
    ("legal: fence, neighbour's gone", fence_beside_gone, LEGAL),
];

/// Each turn has five compares that succeed and seven that fail.
const COMPARES: [(&str, Maker, u8); 9] = [
    ("legal: compare succeeds", succeed_twice, LEGAL),
    ("legal: compare fails", fail_twice, LEGAL),
    ("legal: fails, then succeeds", fail_then_succeed, LEGAL),
    ("legal: two compare one word", race, LEGAL),
    ("script: 29, a compare failed", fail_and_persist, 29),
    (
        "script: 22, would succeed",
        |r, s| compare_waiting(r, s, false),
        22,
    ),
    (
        "script: 22, would fail",
        |r, s| compare_waiting(r, s, true),
        22,
    ),
    (
        "script: 23, would succeed",
        |r, s| compare_marked(r, s, false),
        23,
    ),
    (
        "script: 23, would fail",
        |r, s| compare_marked(r, s, true),
        23,
    ),
];

const COMPARES_SHARING: [(&str, Maker, u8); 1] =
    [("legal: compare past a neighbour's", past_beside, LEGAL)];

pub fn all(random: &mut Random) -> Vec<Trial> {
    let mut trials = by_turns(random, &MAKERS, 110, trial);
    trials.extend(by_turns(random, &SHARING, 110, sharing));
    trials.extend(by_turns(random, &COMPARES, 210, trial));
    trials.extend(by_turns(random, &COMPARES_SHARING, 210, sharing));
    trials
}

pub fn some(random: &mut Random) -> Vec<Trial> {
    let mut trials = by_chance(random, &MAKERS, trial);
    trials.truncate(20);
    trials.extend(by_turns(random, &SHARING, 2, sharing));
    trials.extend(by_turns(random, &COMPARES, 1, trial));
    trials
}

fn trial(random: &mut Random, row: &(&str, Maker, u8)) -> Trial {
    let script = Script::new(random, false);
    written(random, script, row)
}

fn sharing(random: &mut Random, row: &(&str, Maker, u8)) -> Trial {
    let script = Script::new(random, true);
    written(random, script, row)
}

fn written(random: &mut Random, mut script: Script, row: &(&str, Maker, u8)) -> Trial {
    let (name, maker, number) = row;
    maker(random, &mut script);
    closed(random, script, name, *number)
}

/// The frame of a script whose last step breaks that rule, or of a legal one.
pub fn closed(random: &mut Random, mut script: Script, name: &str, number: u8) -> Trial {
    let mut place = script.steps.len();
    // Rule 21 needs a thread without instructions left.
    let spared = if number == 21 {
        Some(script.thread)
    } else {
        None
    };
    script.add_unissued(random, spared);
    if number != LEGAL {
        place -= 1;
        let behind = random.below(MOST_STEPS - place);
        for _ in 0..random.pick(&[0, behind.min(3), behind]) {
            let step = any_step(random, &script.case);
            script.steps.push(step);
        }
    }
    script.case.set_run(&script.steps);
    let trial = judged(random, name, number, place, &script.case);
    with_blocker(trial, script.blocker)
}

pub const FENCES: [u8; 3] = [4, 8, 9];
/// Store word, store register, flush-opt.
const QUEUED: [u8; 3] = [1, 2, 6];

fn none_left_waiting(random: &mut Random, s: &mut Script) {
    for _ in 0..1 + random.below(4) {
        s.own_anywhere(random, &WAITING);
    }
    s.issue_again(s.thread);
}

pub fn fence_waiting(random: &mut Random, s: &mut Script) {
    for _ in 0..1 + random.below(3) {
        s.own_anywhere(random, &WAITING);
    }
    s.own_anywhere(random, &FENCES);
    s.blocker = Some(Blocker::waiting(s.thread.into(), 0));
}

fn fence_waiting_marked(random: &mut Random, s: &mut Script) {
    s.queue(random, s.thread, s.at, &[6]);
    fence_waiting(random, s);
}

fn fence_marked(random: &mut Random, s: &mut Script) {
    leave_marker(random, s, (0, 1), (0, 1));
    s.own_anywhere(random, &FENCES);
}

/// The thread's marker in the queue of the location's line, the first one there, with entries of the line
/// before it and behind it: at least and at most so many.
pub fn leave_marker(random: &mut Random, s: &mut Script, before: (u8, u8), behind: (u8, u8)) {
    let before = random.between(before.0, before.1);
    for _ in 0..before {
        let (thread, operations) = random.pick(&[(s.other, &QUEUED[..]), (s.thread, &[1, 2])]);
        s.queue(random, thread, s.neighbour, operations);
    }
    s.queue(random, s.thread, s.at, &[6]);
    for _ in 0..random.between(behind.0, behind.1) {
        let thread = random.pick(&[s.thread, s.other]);
        s.queue(random, thread, s.neighbour, &QUEUED);
    }
    s.blocker = Some(Blocker::queued(s.line(), before.into()));
}

/// Perhaps something of the other thread in the queue of the location's line.
pub fn surround(random: &mut Random, s: &mut Script) {
    if random.one_in(2) {
        s.queue(random, s.other, s.neighbour, &QUEUED);
    }
}

fn beyond_the_last(random: &mut Random, s: &mut Script) {
    let waiting = random.between(0, POSITIONS - 4);
    for _ in 0..waiting {
        s.own_anywhere(random, &WAITING);
    }
    let position = random.between(waiting, POSITIONS - 1);
    let position = random.pick(&[waiting, position]);
    s.shift(s.thread, position);
}

fn not_a_flush_opt(random: &mut Random, s: &mut Script) {
    let before = random.between(1, 8);
    for _ in 0..before {
        s.own_anywhere(random, &WAITING);
    }
    s.own_anywhere(random, &[1, 2, 5, 7]);
    s.shift(s.thread, before);
}

/// Behind a store of its line: a flush-opt there would be barred.
fn not_a_flush_opt_same_line(random: &mut Random, s: &mut Script) {
    s.own_beside(random, &[1, 2, 5, 7]);
    s.own(random, &[1, 2, 5]);
    s.shift(s.thread, 1);
}

fn flush_behind(random: &mut Random, s: &mut Script) {
    let filler = random.pick(&[s.thread, s.other]);
    s.queue(random, filler, s.neighbour, &[1, 2, 6]);
    s.own_elsewhere(random, &WAITING);
    s.own(random, &[5]);
    s.shift(s.thread, 1);
}

fn sfence_behind(random: &mut Random, s: &mut Script) {
    s.queue(random, s.thread, s.at, &[6]);
    s.own_anywhere(random, &WAITING);
    s.own(random, &[7]);
    s.shift(s.thread, 1);
}

/// What bars a flush-opt: a store or flush of its line, or an sfence.
pub const BARS: [u8; 4] = [1, 2, 5, 7];

/// One of them before a flush-opt; others around it.
fn barred(random: &mut Random, s: &mut Script) {
    barred_by(random, s, &BARS);
}

pub fn barred_by(random: &mut Random, s: &mut Script, operations: &[u8]) {
    let (before, between) = (random.between(0, 1), random.between(0, 2));
    barred_after(random, s, before, operations);
    for _ in 0..between {
        s.own_elsewhere(random, &[1, 2, 5, 6]);
    }
    s.own(random, &[6]);
    s.shift(s.thread, before + 1 + between);
}

/// The first entry of the thread that bars a flush-opt, behind so many that do not.
pub fn barred_after(random: &mut Random, s: &mut Script, before: u8, operations: &[u8]) {
    for _ in 0..before {
        if random.one_in(4) {
            s.own_beside(random, &[6]);
        } else {
            s.own_elsewhere(random, &[1, 2, 5, 6]);
        }
    }
    s.own_beside(random, operations);
    s.blocker = Some(Blocker::waiting(s.thread.into(), before.into()));
}

pub fn flush_queue_filled(random: &mut Random, s: &mut Script) {
    let filler = random.pick(&[s.thread, s.other]);
    s.queue(random, filler, s.neighbour, &[1, 2, 4, 6, 6]);
    for _ in 0..random.below(3) {
        let filler = random.pick(&[s.thread, s.other]);
        s.queue(random, filler, s.neighbour, &QUEUED);
    }
    s.own(random, &[5]);
    s.shift(s.thread, 0);
    s.blocker = Some(Blocker::queued(s.line(), 0));
}

fn sfence_marked(random: &mut Random, s: &mut Script) {
    leave_marker(random, s, (0, 1), (0, 1));
    s.own(random, &[7]);
    s.shift(s.thread, 0);
}

fn persist_nothing(random: &mut Random, s: &mut Script) {
    if random.one_in(2) {
        s.queue(random, s.thread, s.elsewhere, &[1, 2, 4, 6]);
    }
    if random.one_in(2) {
        s.own(random, &WAITING);
    }
    s.persist(s.at);
}
