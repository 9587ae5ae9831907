//! Legal runs by construction that come near to a rule.

use super::script::Script;
use super::scripts::{surround, FENCES};
use crate::judge::case::MOST_INSTRUCTIONS;
use crate::streams::random::Random;

pub fn at_once(random: &mut Random, s: &mut Script) {
    for _ in 0..2 * MOST_INSTRUCTIONS {
        let thread = random.pick(&[s.thread, s.other]);
        s.at_once(random, thread, MOST_INSTRUCTIONS);
    }
}

pub fn pass_others(random: &mut Random, s: &mut Script) {
    let before = random.between(1, 8);
    for _ in 0..before {
        s.own_elsewhere(random, &[1, 2, 5]);
    }
    s.own(random, &[6]);
    s.shift(s.thread, before);
}

/// Flush-opts of its own line do not bar a flush-opt.
pub fn pass_flush_opts(random: &mut Random, s: &mut Script) {
    let before = random.between(1, 8);
    for _ in 0..before {
        s.own_beside(random, &[6]);
    }
    s.own(random, &[6]);
    s.shift(s.thread, before);
}

pub fn flush_others_filled(random: &mut Random, s: &mut Script) {
    s.queue(random, s.thread, s.elsewhere, &[1, 2, 6]);
    s.queue(random, s.other, s.elsewhere, &[1, 2, 6]);
    s.own(random, &[5]);
    // What waits behind the flush does not matter.
    s.own(random, &[1, 2, 6]);
    s.shift(s.thread, 0);
}

pub fn fence_others_marker(random: &mut Random, s: &mut Script) {
    s.queue(random, s.other, s.at, &[6]);
    s.queue(random, s.thread, s.at, &[1, 2]);
    s.own_anywhere(random, &FENCES);
}

pub fn sfence_others_marker(random: &mut Random, s: &mut Script) {
    s.queue(random, s.other, s.at, &[6]);
    s.own(random, &[7]);
    s.shift(s.thread, 0);
}

pub fn fence_marker_gone(random: &mut Random, s: &mut Script) {
    s.queue(random, s.thread, s.neighbour, &[6]);
    s.persist(s.at);
    if random.one_in(2) {
        s.own_anywhere(random, &FENCES);
    } else {
        s.own(random, &[7]);
        s.shift(s.thread, 0);
    }
}

pub fn exchange_queue_filled(random: &mut Random, s: &mut Script) {
    s.queue(random, s.thread, s.at, &[1, 2]);
    surround(random, s);
    s.own(random, &[4]);
    s.own(random, &[3]);
}

/// Only the sfence waits before it leaves; the flush-opt behind it is no marker yet.
pub fn sfence_before_flush_opt(random: &mut Random, s: &mut Script) {
    s.own(random, &[7]);
    s.own_anywhere(random, &[6]);
    s.shift(s.thread, 0);
    s.shift(s.thread, 0);
}
