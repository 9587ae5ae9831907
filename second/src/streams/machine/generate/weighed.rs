//! Single steps by construction that issue a compare of which it is known whether it succeeds.

use super::programs::{instruction_at, word};
use super::scene::*;
use super::shared::look_past;
use super::steps::{before_fence, issue_by, WAITING_SOME};
use crate::judge::case::Step;
use crate::judge::machine::rules::COMPARE;
use crate::judge::machine::state::Entry;
use crate::judge::whole::outcome::{seen, Outcome};
use crate::streams::random::Random;

/// So many entries of the thread wait, and it has a marker or none.
pub fn compare(
    random: &mut Random,
    waiting: (u8, u8),
    marker: bool,
    outcome: Outcome,
) -> (Scene, Step) {
    let mut scene = before_fence(random, waiting, marker, 1);
    let next = instruction_at(random, COMPARE, scene.at);
    scene.set_next(random, next);
    decide(random, &mut scene, outcome);
    issue_by(scene)
}

/// Something waits, and perhaps there is a marker too.
pub fn barred_compare(random: &mut Random, outcome: Outcome) -> (Scene, Step) {
    let marker = random.one_in(2);
    compare(random, WAITING_SOME, marker, outcome)
}

/// The newest write in the queue is the neighbour's.
pub fn compare_past(random: &mut Random) -> (Scene, Step) {
    let (mut scene, step) = look_past(random, COMPARE);
    let outcome = random.pick(&[Outcome::Succeeds, Outcome::Fails]);
    decide(random, &mut scene, outcome);
    (scene, step)
}

/// The register holds what the compare reads, or what a careless one would read; now and then the word to
/// be written is just that too.
fn decide(random: &mut Random, scene: &mut Scene, outcome: Outcome) {
    let right = seen(&scene.case, &scene.state, scene.at);
    let held = match outcome {
        Outcome::Succeeds => right,
        Outcome::Fails => {
            let mut others = careless(random, scene);
            others.retain(|&other| other != right);
            random.pick(&others)
        }
    };
    let mut next = scene.next();
    scene.state.registers[scene.thread][usize::from(next.register)] = held;
    if random.one_in(4) {
        next.word = held;
        scene.set_next(random, next);
    }
}

/// Words that are not read, if they differ from the one that is: the persistent word, any in the line's
/// queue, the own buffer's stores, 0 and any. At least one of the last two differs from any word.
fn careless(random: &mut Random, scene: &mut Scene) -> Vec<u32> {
    let any = word(random).max(1);
    let line = scene.line();
    let queued = scene.state.queues[line].used().iter();
    let mut words: Vec<u32> = queued.map(|held| held.word).collect();
    words.extend([scene.state.words[usize::from(scene.at)]; 4]);
    words.extend(scene.entries().iter().filter_map(|entry| match entry {
        Entry::Store { word, .. } => Some(*word),
        _ => None,
    }));
    words.extend([0, any]);
    words
}
