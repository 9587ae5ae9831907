//! Runs and single steps by construction for each spot where a blocker can stand.

use super::by_chance;
use super::moves::{bar, first_in, move_by, passed};
use super::programs::WAITING;
use super::scene::*;
use super::script::Script;
use super::scripts::{
    barred_after, closed, fence_waiting, flush_queue_filled, leave_marker, BARS, FENCES,
};
use super::steps::issue_of_fence;
use crate::judge::case::Step;
use crate::judge::machine::blocker::Blocker;
use crate::judge::machine::rules::*;
use crate::judge::machine::state::Entry;
use crate::streams::layouts;
use crate::streams::machine::frame::{Job, Trial};
use crate::streams::machine::spots::{spots, Seat, Spot, BY_JOB, LAST_BAR};
use crate::streams::random::Random;
use crate::streams::sizes::{INSTRUCTIONS, LOCATIONS, QUEUED, THREADS};

pub fn all(random: &mut Random) -> Vec<Trial> {
    let mut trials = Vec::new();
    for spot in spots() {
        for (job, count) in BY_JOB.into_iter().enumerate() {
            trials.extend((0..count).map(|_| trial(random, &spot, job)));
        }
    }
    trials
}

pub fn some(random: &mut Random) -> Vec<Trial> {
    by_chance(random, &spots(), |random, spot| {
        let job = random.below(BY_JOB.len());
        trial(random, spot, job)
    })
}

fn trial(random: &mut Random, spot: &Spot, job: usize) -> Trial {
    let job = match job {
        0 => Job::Bytes,
        1 => Job::Case,
        _ => return step(random, spot),
    };
    Trial {
        job,
        ..run(random, spot)
    }
}

fn run(random: &mut Random, spot: &Spot) -> Trial {
    // The last bar needs all instructions of the thread.
    let own = usize::from(spot.seat != Seat::At(LAST_BAR));
    let mut script = match spot.rule {
        BUFFER_NOT_EMPTY | BARRED => {
            let line = random.between(0, LOCATIONS / 2 - 1);
            Script::of(random, spot.which, line, own)
        }
        _ => {
            let thread = random.between(0, THREADS - 1);
            Script::of(random, thread, spot.which, own)
        }
    };
    let s = &mut script;
    match (spot.rule, spot.seat) {
        (BUFFER_NOT_EMPTY, _) => fence_waiting(random, s),
        (BARRED, Seat::At(position)) => barred_behind(random, s, position),
        (QUEUE_NOT_EMPTY, _) => flush_queue_filled(random, s),
        (rule, seat) => marker_left(random, s, rule, seat),
    }
    let name = format!("script: {}, each place", spot.rule);
    closed(random, script, &name, spot.rule)
}

/// Between the first entry that bars the flush-opt and the flush-opt may stand more such.
fn barred_behind(random: &mut Random, s: &mut Script, position: u8) {
    let left = LAST_BAR - s.case.counts[usize::from(s.thread)];
    barred_after(random, s, position, &BARS);
    let between = random.between(0, left - position);
    for _ in 0..between {
        s.own_anywhere(random, &WAITING);
    }
    s.own(random, &[6]);
    s.shift(s.thread, position + 1 + between);
}

fn marker_left(random: &mut Random, s: &mut Script, rule: u8, seat: Seat) {
    let (before, behind) = match seat {
        Seat::At(_) => ((0, 0), (0, 4)),
        Seat::Between => ((1, 4), (1, 4)),
        Seat::Last => ((1, 4), (0, 0)),
    };
    stray(random, s);
    leave_marker(random, s, before, behind);
    stray(random, s);
    if rule == MARKER_BEFORE_FENCE {
        s.own_anywhere(random, &FENCES);
    } else {
        s.own(random, &[7]);
        s.shift(s.thread, 0);
    }
}

/// Perhaps a marker in another queue, older or younger than the first: in a higher one the thread's, in a
/// lower one the other's.
fn stray(random: &mut Random, s: &mut Script) {
    if random.one_in(2) {
        let is_higher = s.case.line_of(s.elsewhere) > s.line();
        let owner = if is_higher { s.thread } else { s.other };
        s.queue(random, owner, s.elsewhere, &[6]);
    }
}

fn step(random: &mut Random, spot: &Spot) -> Trial {
    let (scene, step) = match (spot.rule, spot.seat) {
        (BUFFER_NOT_EMPTY, _) => waiting_at(random, spot.which),
        (BARRED, Seat::At(position)) => barred_at(random, spot.which, position.into()),
        (QUEUE_NOT_EMPTY, _) => queued_at(random, spot.which),
        (rule, seat) => marker_at(random, rule, spot.which, seat),
    };
    let name = format!("step: {}, each place", spot.rule);
    scene.trial(random, &name, spot.rule, step)
}

fn of_thread(random: &mut Random, need: Need, thread: u8) -> Scene {
    let need = Need {
        threads: (thread + 1, THREADS),
        ..need
    };
    loop {
        let scene = Scene::new(random, &need);
        if scene.thread == usize::from(thread) {
            return scene;
        }
    }
}

/// The scene's location is on that line, in whose queue stand at least so many.
fn of_line(random: &mut Random, need: Need, line: u8, least: u8) -> Scene {
    let need = Need {
        locations: (line + 1, LOCATIONS),
        spare: least,
        ..need
    };
    let mut scene = Scene::of_case(random, &need, |case| case.lines > line);
    scene.at = random.pick(&layouts::on_line(&scene.case, line.into()));
    let most = QUEUED - scene.to_come();
    let few = most.min(least + 3);
    let most = random.pick(&[few, most]);
    scene.state.queues[usize::from(line)].count = random.between(least, most);
    scene.fill(random);
    scene
}

/// What a fence needs of its thread.
const BEFORE_FENCE: Need = Need {
    unissued: (1, INSTRUCTIONS),
    waiting: (0, 0),
    ..ANY
};

fn waiting_at(random: &mut Random, thread: u8) -> (Scene, Step) {
    let need = Need {
        waiting: (1, INSTRUCTIONS - 1),
        ..BEFORE_FENCE
    };
    let mut scene = of_thread(random, need, thread);
    scene.blocker = Some(Blocker::waiting(thread.into(), 0));
    issue_of_fence(random, scene)
}

fn barred_at(random: &mut Random, thread: u8, position: usize) -> (Scene, Step) {
    let need = Need {
        waiting: (position as u8 + 2, INSTRUCTIONS),
        ..ANY
    };
    let mut scene = of_thread(random, need, thread);
    let own = scene.at;
    let (passed, bar) = (passed(random, &scene, position), bar(random, &scene));
    let entries = scene.entries();
    entries[..position].copy_from_slice(&passed);
    entries[position] = bar;
    let moved = position + 1 + random.below(entries.len() - position - 1);
    entries[moved] = Entry::FlushOpt(own);
    scene.blocker = Some(Blocker::waiting(thread.into(), position));
    move_by(scene, moved)
}

fn queued_at(random: &mut Random, line: u8) -> (Scene, Step) {
    let need = Need {
        waiting: (1, INSTRUCTIONS),
        ..ANY
    };
    let mut scene = of_line(random, need, line, 1);
    scene.blocker = Some(Blocker::queued(line.into(), 0));
    first_in(scene, Entry::Flush)
}

fn marker_at(random: &mut Random, rule: u8, line: u8, seat: Seat) -> (Scene, Step) {
    let is_issue = rule == MARKER_BEFORE_FENCE;
    let moved = Need {
        waiting: (1, INSTRUCTIONS),
        ..ANY
    };
    let need = if is_issue { BEFORE_FENCE } else { moved };
    let least = match seat {
        Seat::At(_) => 1,
        Seat::Last => 2,
        Seat::Between => 3,
    };
    let mut scene = of_line(random, need, line, least);
    let last = usize::from(scene.state.queues[scene.line()].count) - 1;
    let position = match seat {
        Seat::At(position) => position.into(),
        Seat::Last => last,
        Seat::Between => 1 + random.below(last - 1),
    };
    scene.strip_before(position);
    scene.blocker = Some(scene.plant_at(position));
    if is_issue {
        issue_of_fence(random, scene)
    } else {
        first_in(scene, |_| Entry::Sfence)
    }
}
