//! Single steps by construction on states in which another location of the line decides.

use super::moves::first_in;
use super::programs::instruction_at;
use super::scene::*;
use crate::judge::case::Step;
use crate::judge::machine::blocker::Blocker;
use crate::judge::machine::state::Entry;
use crate::judge::machine::steps::{issue, shift};
use crate::streams::layouts;
use crate::streams::random::Random;
use crate::streams::registers::takes;
use crate::streams::sizes::{INSTRUCTIONS, QUEUED};

/// A scene whose location is not alone on its line, and another location there.
fn scene(random: &mut Random, need: &Need) -> (Scene, u8) {
    loop {
        let scene = Scene::new(random, need);
        let beside = layouts::neighbour(random, &scene.case, scene.at);
        if beside != scene.at {
            return (scene, beside);
        }
    }
}

/// Before the flush-opt stand flush-opts, and a store or a flush of the neighbour.
pub fn barred_beside(random: &mut Random) -> (Scene, Step) {
    let need = Need {
        waiting: (2, INSTRUCTIONS),
        ..ANY
    };
    let (mut scene, location) = scene(random, &need);
    let (own, locations) = (scene.at, scene.case.locations);
    let word = super::programs::word(random);
    let entries = scene.entries();
    let position = 1 + random.below(entries.len() - 1);
    for entry in &mut entries[..position] {
        *entry = Entry::FlushOpt(random.between(0, locations - 1));
    }
    let bar = random.pick(&[Entry::Store { location, word }, Entry::Flush(location)]);
    let first = random.below(position);
    entries[first] = bar;
    entries[position] = Entry::FlushOpt(own);
    scene.blocker = Some(Blocker::waiting(scene.thread, first));
    let step = shift(scene.thread as u8, position as u8);
    (scene, step)
}

/// The neighbour takes the place of the location in all writes of the queue.
fn hand_over(scene: &mut Scene, beside: u8) {
    let (own, line) = (scene.at, scene.line());
    for held in &mut scene.state.queues[line].places {
        if held.location() == Some(own) {
            held.mark = beside;
        }
    }
}

/// The flush's location has no write in the queue, but the neighbour has.
pub fn filled_beside(random: &mut Random) -> (Scene, Step) {
    let need = Need {
        waiting: (1, INSTRUCTIONS),
        length: (1, QUEUED),
        ..ANY
    };
    let (mut scene, beside) = scene(random, &need);
    hand_over(&mut scene, beside);
    scene.any_held(random).mark = beside;
    scene.blocker = Some(Blocker::queued(scene.line(), 0));
    first_in(scene, Entry::Flush)
}

/// The newest write is the neighbour's; the location has one before it, or none.
pub fn look_past(random: &mut Random, operation: u8) -> (Scene, Step) {
    let need = Need {
        unissued: (1, INSTRUCTIONS),
        issued: u8::from(takes(operation)),
        waiting: (0, 0),
        length: (2, QUEUED),
        ..ANY
    };
    let (mut scene, beside) = scene(random, &need);
    let next = instruction_at(random, operation, scene.at);
    scene.set_next(random, next);
    scene.strip();
    hand_over(&mut scene, beside);
    let (own, line) = (scene.at, scene.line());
    let queue = &mut scene.state.queues[line];
    let last = usize::from(queue.count) - 1;
    queue.places[last].mark = beside;
    if random.one_in(2) {
        queue.places[random.below(last)].mark = own;
    }
    let step = issue(scene.thread as u8);
    (scene, step)
}
