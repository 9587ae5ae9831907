//! Runs by construction in which another location of the line decides.

use super::script::Script;
use super::scripts::{barred_by, FENCES};
use crate::streams::random::Random;

pub fn barred_beside(random: &mut Random, s: &mut Script) {
    barred_by(random, s, &[1, 2, 5]);
}

/// The line's one entry is the neighbour's, and it has left.
pub fn persist_beside_gone(random: &mut Random, s: &mut Script) {
    s.queue(random, s.thread, s.neighbour, &[1, 2, 4, 6]);
    s.persist(s.at);
    if random.one_in(2) {
        s.queue(random, s.other, s.elsewhere, &[1, 2, 6]);
    }
    s.persist(s.at);
}

/// Writes of both locations leave one queue, in their order.
pub fn persist_beside(random: &mut Random, s: &mut Script) {
    s.queue(random, s.thread, s.neighbour, &[1, 2, 4]);
    s.queue(random, s.other, s.at, &[1, 2, 4]);
    s.own(random, &[3]);
    s.persist(s.at);
    s.persist(s.neighbour);
    s.own(random, &[3]);
    s.own_beside(random, &[3]);
}

/// A load or an exchange of one location under newer writes of the other.
pub fn load_past_beside(random: &mut Random, s: &mut Script) {
    if random.one_in(2) {
        s.queue(random, s.thread, s.at, &[1, 4]);
    }
    for _ in 0..1 + random.below(2) {
        s.queue(random, s.other, s.neighbour, &[1, 2]);
    }
    s.own(random, &[3, 4]);
    s.own_beside(random, &[3, 4]);
}

/// The thread's marker came of the neighbour, and it has left; the other thread's write has not.
pub fn fence_beside_gone(random: &mut Random, s: &mut Script) {
    s.queue(random, s.thread, s.neighbour, &[6]);
    s.queue(random, s.other, s.at, &[1, 2]);
    s.persist(s.at);
    s.own(random, &FENCES);
}
