//! Moves on states in memory that fit, by construction.

use super::programs::word;
use super::scene::*;
use crate::judge::case::{Step, POSITIONS};
use crate::judge::machine::blocker::Blocker;
use crate::judge::machine::state::Entry;
use crate::judge::machine::steps::shift;
use crate::streams::layouts;
use crate::streams::random::Random;
use crate::streams::sizes::{INSTRUCTIONS, LOCATIONS, QUEUED};

pub fn move_by(scene: Scene, position: usize) -> (Scene, Step) {
    let step = shift(scene.thread as u8, position as u8);
    (scene, step)
}

pub fn beyond_the_last(random: &mut Random) -> (Scene, Step) {
    let need = Need {
        waiting: (0, INSTRUCTIONS - 1),
        ..ANY
    };
    let mut scene = Scene::new(random, &need);
    let waiting = scene.entries().len() as u8;
    let position = random.between(waiting, POSITIONS - 1);
    let position = random.pick(&[waiting, position]);
    move_by(scene, position.into())
}

/// What is no flush-opt, behind position 0: 1 store, 2 flush, 7 sfence; 3 store, 4 flush behind
/// a store of its line; 5 a flush of a filled queue; 6 an sfence while a marker is left.
pub fn behind(random: &mut Random, sorts: &[u8]) -> (Scene, Step) {
    let sort = random.pick(sorts);
    let need = Need {
        waiting: (2, INSTRUCTIONS),
        length: (u8::from(sort == 5 || sort == 6), QUEUED),
        ..ANY
    };
    let mut scene = Scene::new(random, &need);
    let location = scene.at;
    let word = word(random);
    let store = |location| Entry::Store { location, word };
    let neighbour = layouts::neighbour(random, &scene.case, location);
    if sort == 6 {
        scene.plant(random);
    }
    let entries = scene.entries();
    let position = 1 + random.below(entries.len() - 1);
    if sort == 3 || sort == 4 {
        entries[random.below(position)] = store(neighbour);
    }
    entries[position] = match sort {
        1 | 3 => store(location),
        2 | 4 | 5 => Entry::Flush(location),
        _ => Entry::Sfence,
    };
    move_by(scene, position)
}

pub fn barred(random: &mut Random) -> (Scene, Step) {
    let need = Need {
        waiting: (2, INSTRUCTIONS),
        ..ANY
    };
    let mut scene = Scene::new(random, &need);
    let own = scene.at;
    let bar = bar(random, &scene);
    let entries = scene.entries();
    let position = 1 + random.below(entries.len() - 1);
    entries[position] = Entry::FlushOpt(own);
    entries[random.below(position)] = bar;
    move_by(scene, position)
}

/// What bars a flush-opt of the scene's location.
pub fn bar(random: &mut Random, scene: &Scene) -> Entry {
    let location = layouts::neighbour(random, &scene.case, scene.at);
    let word = word(random);
    random.pick(&[
        Entry::Store { location, word },
        Entry::Flush(location),
        Entry::Sfence,
    ])
}

/// Nothing before the flush-opt bars it: other lines, and flush-opts of its own.
pub fn passing(random: &mut Random) -> (Scene, Step) {
    let need = Need {
        waiting: (2, INSTRUCTIONS),
        locations: (2, LOCATIONS),
        ..ANY
    };
    let mut scene = Scene::of_case(random, &need, |case| case.lines > 1);
    let own = scene.at;
    let position = 1 + random.below(scene.entries().len() - 1);
    let passed = passed(random, &scene, position);
    let entries = scene.entries();
    entries[..position].copy_from_slice(&passed);
    entries[position] = Entry::FlushOpt(own);
    move_by(scene, position)
}

/// So many entries that a flush-opt of the scene's location passes.
pub fn passed(random: &mut Random, scene: &Scene, count: usize) -> Vec<Entry> {
    let others = layouts::elsewhere(&scene.case, scene.at);
    let one = |_| {
        let beside = layouts::neighbour(random, &scene.case, scene.at);
        let location = match random.pick_some(&others) {
            Some(location) => location,
            None => return Entry::FlushOpt(beside),
        };
        let word = word(random);
        random.pick(&[
            Entry::Store { location, word },
            Entry::Flush(location),
            Entry::FlushOpt(location),
            Entry::FlushOpt(beside),
        ])
    };
    (0..count).map(one).collect()
}

/// The first entry is of the scene's location, whose line's queue is empty (0), filled (1), or any (2).
pub fn first(random: &mut Random, entry: fn(u8) -> Entry, filled: u8) -> (Scene, Step) {
    let need = Need {
        waiting: (1, INSTRUCTIONS),
        length: [(0, 0), (1, QUEUED), (0, QUEUED)][usize::from(filled)],
        ..ANY
    };
    let scene = Scene::new(random, &need);
    first_in(scene, entry)
}

pub fn first_in(mut scene: Scene, entry: fn(u8) -> Entry) -> (Scene, Step) {
    let location = scene.at;
    scene.entries()[0] = entry(location);
    move_by(scene, 0)
}

/// Something is queued before the flush.
pub fn flush_filled(random: &mut Random) -> (Scene, Step) {
    let (mut scene, step) = first(random, Entry::Flush, 1);
    scene.blocker = Some(Blocker::queued(scene.line(), 0));
    (scene, step)
}

pub fn first_store(random: &mut Random) -> (Scene, Step) {
    first(random, |location| Entry::Store { location, word: 77 }, 2)
}

pub fn first_sfence(random: &mut Random, marker: bool) -> (Scene, Step) {
    let need = Need {
        waiting: (1, INSTRUCTIONS),
        length: (u8::from(marker), QUEUED),
        ..ANY
    };
    let mut scene = Scene::new(random, &need);
    scene.entries()[0] = Entry::Sfence;
    scene.strip();
    if marker {
        scene.blocker = Some(scene.plant(random));
    }
    move_by(scene, 0)
}
