//! Two numbers at once on a single step: the order 32, 33, 5, 8, rules.

use super::misfits;
use super::runs::{self, any_step, steps_with};
use super::scene::{Scene, ANY};
use super::{programs, scripts, steps};
use crate::judge::case::{Step, POSITIONS};
use crate::judge::case::{MOST_INSTRUCTIONS, MOST_LOCATIONS, MOST_STEPS, MOST_THREADS};
use crate::judge::machine::rules::{ISSUE, MOVE};
use crate::judge::machine::steps::{all_steps, issue, persist, shift};
use crate::judge::writing::encode;
use crate::streams::cases::fields;
use crate::streams::machine::frame::{Job, Trial};
use crate::streams::machine::marks::marked;
use crate::streams::machine::raw::STATE_BYTES;
use crate::streams::random::Random;
use crate::streams::sizes::{INSTRUCTIONS, THREADS};

/// A maker of steps may find none that serves in the scene.
type SceneMaker = fn(&mut Random) -> Scene;
type StepMaker = fn(&mut Random, &Scene) -> Option<Step>;

/// Family, the makers of its scene and step, the number.
const MAKERS: [(&str, SceneMaker, StepMaker, u8); 8] = [
    ("33+5", misfit, out_of_range, 33),
    ("33+8", misfit, any_unused_set, 33),
    ("33+rule", misfit, of_nothing, 33),
    ("5", fitting, out_of_range, 5),
    ("8", fitting, legal_unused_set, 8),
    ("5+8", fitting, out_of_range_unused_set, 5),
    ("5+rule", fitting, field_beyond, 5),
    ("8+rule", fitting, of_nothing_unused_set, 8),
];

pub fn all(random: &mut Random) -> Vec<Trial> {
    let makers = MAKERS.iter().cycle().take(120 * MAKERS.len());
    let mut trials: Vec<Trial> = makers.map(|maker| trial(random, maker)).collect();
    trials.extend((0..150).map(|_| any_bytes(random)));
    trials
}

pub fn some(random: &mut Random) -> Vec<Trial> {
    MAKERS.iter().map(|maker| trial(random, maker)).collect()
}

fn trial(random: &mut Random, maker: &(&str, SceneMaker, StepMaker, u8)) -> Trial {
    let (name, make_scene, make_step, number) = maker;
    loop {
        let scene = make_scene(random);
        if let Some(step) = make_step(random, &scene) {
            return scene.trial(random, name, *number, step);
        }
    }
}

fn fitting(random: &mut Random) -> Scene {
    Scene::new(random, &ANY)
}

fn misfit(random: &mut Random) -> Scene {
    let (_, maker) = random.pick(&misfits::ABOVE);
    maker(random)
}

/// A used field beyond its range: of such a thread, position or line there is nothing, though there may
/// be a location of that number.
fn field_beyond(random: &mut Random, scene: &Scene) -> Option<Step> {
    let case = &scene.case;
    let (thread, position) = (random.beyond(case.threads), random.beyond(POSITIONS));
    let own = random.between(0, case.threads - 1);
    let first = random.between(0, POSITIONS - 1);
    let last = case.locations.max(case.lines + 1) - 1;
    let line = random.between(case.lines, last);
    let beyond = random.beyond(case.lines);
    Some(random.pick(&[
        issue(thread),
        shift(thread, first),
        shift(own, position),
        persist(line),
        persist(beyond),
    ]))
}

fn out_of_range(random: &mut Random, scene: &Scene) -> Option<Step> {
    let step = field_beyond(random, scene)?;
    let code = random.beyond(3);
    Some(random.pick(&[step, step, Step { code, ..step }]))
}

fn out_of_range_unused_set(random: &mut Random, scene: &Scene) -> Option<Step> {
    let step = field_beyond(random, scene)?;
    Some(unused_set(random, step))
}

fn any_unused_set(random: &mut Random, scene: &Scene) -> Option<Step> {
    let step = any_step(random, &scene.case);
    Some(unused_set(random, step))
}

fn unused_set(random: &mut Random, mut step: Step) -> Step {
    let any = random.between(1, 255);
    let junk = random.pick(&[1, 255, any]);
    let first = random.one_in(2);
    match step.code {
        ISSUE if first => step.position = junk,
        ISSUE | MOVE => step.line = junk,
        _ if first => step.thread = junk,
        _ => step.position = junk,
    }
    step
}

/// A step that would be legal but for the unused field.
fn legal_unused_set(random: &mut Random, scene: &Scene) -> Option<Step> {
    let legal = steps_with(&scene.case, &scene.state, Ok(()));
    let step = random.pick_some(&legal)?;
    Some(unused_set(random, step))
}

/// A step for which there is plainly nothing: 21, 24 or 29.
fn of_nothing(random: &mut Random, scene: &Scene) -> Option<Step> {
    let mut steps = all_steps(&scene.case);
    steps.retain(|step| {
        let thread = usize::from(step.thread);
        match step.code {
            ISSUE => scene.unissued(thread) == 0,
            MOVE => step.position >= scene.state.buffers[thread].count,
            _ => scene.state.queues[usize::from(step.line)].count == 0,
        }
    });
    random.pick_some(&steps)
}

fn of_nothing_unused_set(random: &mut Random, scene: &Scene) -> Option<Step> {
    let step = of_nothing(random, scene)?;
    Some(unused_set(random, step))
}

/// Bytes at random, but more issued than any thread has.
fn any_bytes(random: &mut Random) -> Trial {
    let case = programs::any(random);
    let step = any_step(random, &case);
    let mut state = random.bytes(STATE_BYTES);
    state[STATE_BYTES - 1] = random.beyond(INSTRUCTIONS + 1);
    marked(
        "33: any bytes",
        33,
        0,
        encode(&case),
        Job::Step(step, state),
    )
}

/// Frames of all sorts whose case a bad count then makes unreadable: 32 comes first.
pub fn beaten(random: &mut Random) -> Vec<Trial> {
    let mut trials = Vec::new();
    for _ in 0..24 {
        for part in [misfits::some, some, scripts::some, steps::some, runs::some] {
            let mut part = part(random);
            part.truncate(12);
            for trial in &mut part {
                set_bad_count(random, trial);
            }
            trials.extend(part);
        }
    }
    trials.retain(|trial| trial.job != Job::Bytes);
    trials
}

/// Threads, locations, instructions of a thread, steps, the version, lines; the bits above the field's
/// are cut.
fn set_bad_count(random: &mut Random, trial: &mut Trial) {
    let thread = u32::from(random.between(0, THREADS - 1));
    // No program has 0 threads, locations or lines, or is of version 0.
    let counts = [
        (fields::THREADS, MOST_THREADS, true),
        (fields::LOCATIONS, MOST_LOCATIONS, true),
        (fields::COUNTS + thread, MOST_INSTRUCTIONS, false),
        (fields::COUNT, MOST_STEPS, false),
        (fields::VERSION, 2, true),
        (fields::LINES, MOST_LOCATIONS, true),
    ];
    let (field, most, from_one) = random.pick(&counts);
    let bound = most as u32 + 1;
    let any = bound + random.below(64) as u32;
    let above = random.pick(&[bound, bound, any, bound.max(255)]);
    let least = if from_one { 0 } else { above };
    let bad = random.pick(&[above, above, above, least]);
    let cut = random.pick(&[0, 0, 0, 1 << 16, 1 << 24]);
    trial.field = field;
    trial.value = cut + bad;
}
