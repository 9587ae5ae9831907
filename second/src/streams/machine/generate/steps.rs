//! Single steps on states in memory that fit: each rule by construction, and legal ones.

use super::moves::*;
use super::programs::*;
use super::runs::*;
use super::scene::*;
use super::scripts::FENCES;
use super::shared::*;
use super::weighed::{barred_compare, compare, compare_past};
use super::{by_chance, by_turns};
use crate::judge::case::{Step, MOST_STEPS};
use crate::judge::machine::blocker::Blocker;
use crate::judge::machine::judge::LEGAL;
use crate::judge::machine::rules::COMPARE;
use crate::judge::machine::state::Entry;
use crate::judge::machine::steps::{issue, persist};
use crate::judge::whole::outcome::Outcome::{Fails, Succeeds};
use crate::streams::machine::frame::Trial;
use crate::streams::machine::marks::FITS;
use crate::streams::random::Random;
use crate::streams::registers::takes;
use crate::streams::sizes::{INSTRUCTIONS, QUEUED};

type Maker = fn(&mut Random) -> (Scene, Step);

/// Entries before a fence, which is unissued still.
pub const WAITING_SOME: (u8, u8) = (1, INSTRUCTIONS - 1);

/// Family, its maker, the number it must be answered.
const MAKERS: [(&str, Maker, u8); 33] = [
    ("step: 21", none_left, 21),
    ("step: 22", |random| fence(random, WAITING_SOME, false), 22),
    (
        "step: 22+23",
        |random| fence(random, WAITING_SOME, true),
        22,
    ),
    ("step: 23", |random| fence(random, (0, 0), true), 23),
    ("step: 24", beyond_the_last, 24),
    ("step: 25", |random| behind(random, &[1, 2, 7]), 25),
    ("step: 25+26", |random| behind(random, &[3, 4]), 25),
    ("step: 25+27", |random| behind(random, &[5]), 25),
    ("step: 25+28", |random| behind(random, &[6]), 25),
    ("step: 26", barred, 26),
    ("step: 27", flush_filled, 27),
    ("step: 28", |random| first_sfence(random, true), 28),
    ("step: 29", |random| persist_of(random, (0, 0)), 29),
    (
        "step: legal issue",
        |r| issue_of(r, &[1, 2, 2, 2, 5, 6, 7]),
        LEGAL,
    ),
    ("step: legal load", |r| issue_of(r, &[3]), LEGAL),
    ("step: legal fence", |r| fence(r, (0, 0), false), LEGAL),
    ("step: legal store", first_store, LEGAL),
    (
        "step: legal flush",
        |random| first(random, Entry::Flush, 0),
        LEGAL,
    ),
    (
        "step: legal flush-opt",
        |random| first(random, Entry::FlushOpt, 2),
        LEGAL,
    ),
    ("step: legal passing", passing, LEGAL),
    ("step: legal sfence", |r| first_sfence(r, false), LEGAL),
    ("step: legal persist", |r| persist_of(r, (1, QUEUED)), LEGAL),
    ("step: 26, a neighbour's", barred_beside, 26),
    ("step: 27, a neighbour's", filled_beside, 27),
    ("step: load past a neighbour's", |r| look_past(r, 3), LEGAL),
    (
        "step: exchange past a neighbour's",
        |r| look_past(r, 4),
        LEGAL,
    ),
    (
        "step: compare succeeds",
        |r| compare(r, (0, 0), false, Succeeds),
        LEGAL,
    ),
    (
        "step: compare fails",
        |r| compare(r, (0, 0), false, Fails),
        LEGAL,
    ),
    ("step: compare past a neighbour's", compare_past, LEGAL),
    (
        "step: 22, would succeed",
        |r| barred_compare(r, Succeeds),
        22,
    ),
    ("step: 22, would fail", |r| barred_compare(r, Fails), 22),
    (
        "step: 23, would succeed",
        |r| compare(r, (0, 0), true, Succeeds),
        23,
    ),
    (
        "step: 23, would fail",
        |r| compare(r, (0, 0), true, Fails),
        23,
    ),
];

pub fn all(random: &mut Random) -> Vec<Trial> {
    by_turns(random, &MAKERS, 160, trial)
}

pub fn some(random: &mut Random) -> Vec<Trial> {
    by_chance(random, &MAKERS, trial)
}

fn trial(random: &mut Random, (name, maker, number): &(&str, Maker, u8)) -> Trial {
    let (scene, step) = maker(random);
    scene.trial(random, name, *number, step)
}

pub fn everywhere(random: &mut Random) -> Vec<Trial> {
    (0..9).flat_map(|_| anywhere(random)).collect()
}

/// Any step in range on states that runs lead to, and on states that only fit.
pub fn anywhere(random: &mut Random) -> Vec<Trial> {
    let mut trials = Vec::new();
    for _ in 0..30 {
        trials.extend(on_reachable(random));
        for _ in 0..4 {
            let scene = Scene::new(random, &ANY);
            let step = some_step(random, &scene);
            trials.push(scene.trial(random, "step: fitting state", FITS, step));
        }
    }
    trials
}

/// A few steps on one state.
fn on_reachable(random: &mut Random) -> Vec<Trial> {
    let mut case = any(random);
    dress(random, &mut case);
    let length = random.below(MOST_STEPS);
    let (_, state) = walk(random, &case, length);
    (0..4)
        .map(|_| {
            let scene = Scene {
                case: case.clone(),
                state: state.clone(),
                thread: 0,
                at: 0,
                blocker: None,
            };
            let step = some_step(random, &scene);
            scene.trial(random, "step: reachable state", FITS, step)
        })
        .collect()
}

/// A legal one where there is one, or any.
fn some_step(random: &mut Random, scene: &Scene) -> Step {
    let legal = steps_with(&scene.case, &scene.state, Ok(()));
    let any = any_step(random, &scene.case);
    let good = random.pick_some(&legal).unwrap_or(any);
    random.pick(&[any, good])
}

pub fn issue_by(scene: Scene) -> (Scene, Step) {
    let step = issue(scene.thread as u8);
    (scene, step)
}

fn none_left(random: &mut Random) -> (Scene, Step) {
    let need = Need {
        unissued: (0, 0),
        ..ANY
    };
    issue_by(Scene::new(random, &need))
}

/// Exchange, mfence or compare comes next; with or without a marker of the thread.
fn fence(random: &mut Random, waiting: (u8, u8), marker: bool) -> (Scene, Step) {
    let scene = before_fence(random, waiting, marker, 0);
    issue_of_fence(random, scene)
}

/// So many entries of the thread wait, it has a marker or none, and so many instructions are issued at the
/// least; with the blocker of a fence.
pub fn before_fence(random: &mut Random, waiting: (u8, u8), marker: bool, issued: u8) -> Scene {
    let need = Need {
        unissued: (1, INSTRUCTIONS),
        issued,
        waiting,
        length: (u8::from(marker), QUEUED),
        ..ANY
    };
    let mut scene = Scene::new(random, &need);
    scene.strip();
    if marker {
        scene.blocker = Some(scene.plant(random));
    }
    if waiting.0 > 0 {
        scene.blocker = Some(Blocker::waiting(scene.thread, 0));
    }
    scene
}

pub fn issue_of_fence(random: &mut Random, mut scene: Scene) -> (Scene, Step) {
    let mut fences = [&FENCES[..], &[COMPARE]].concat();
    fences.retain(|&fence| !takes(fence) || scene.state.issued[scene.thread] > 0);
    let operation = random.pick(&fences);
    let next = instruction(random, operation, scene.case.locations);
    scene.set_next(random, next);
    issue_by(scene)
}

fn issue_of(random: &mut Random, operations: &[u8]) -> (Scene, Step) {
    let operation = random.pick(operations);
    let need = Need {
        unissued: (1, INSTRUCTIONS),
        issued: u8::from(takes(operation)),
        ..ANY
    };
    let mut scene = Scene::new(random, &need);
    let next = instruction(random, operation, scene.case.locations);
    scene.set_next(random, next);
    issue_by(scene)
}

fn persist_of(random: &mut Random, length: (u8, u8)) -> (Scene, Step) {
    let need = Need { length, ..ANY };
    let scene = Scene::new(random, &need);
    let step = persist(scene.line() as u8);
    (scene, step)
}
