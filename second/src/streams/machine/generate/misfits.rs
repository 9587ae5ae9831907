//! States in memory at each limit of number 33, and just above it; all else fits.

use super::runs::any_step;
use super::scene::*;
use crate::judge::case::{Case, MOST_THREADS};
use crate::judge::machine::state::{Entry, MARKER};
use crate::judge::refusal::STATE_DOES_NOT_FIT;
use crate::streams::layouts;
use crate::streams::machine::frame::Trial;
use crate::streams::machine::marks::FITS;
use crate::streams::once;
use crate::streams::random::Random;
use crate::streams::sizes::{self, INSTRUCTIONS, LOCATIONS, THREADS};

type Maker = fn(&mut Random) -> Scene;

pub const ABOVE: [(&str, Maker); 10] = [
    ("33 above: lacking thread", lacking_thread),
    ("33 above: lacking line", |random| {
        lacking_line(random, false)
    }),
    ("33 above: location that is no line", |random| {
        lacking_line(random, true)
    }),
    ("33 above: entry's location", |random| {
        entry_names(random, |random, locations| random.beyond(locations))
    }),
    ("33 above: marker's thread", |random| {
        bears_mark(random, |random, case| random.beyond(MARKER + case.threads))
    }),
    ("33 above: write's location", |random| {
        bears_mark(random, |random, case| {
            let any = random.between(case.locations, MARKER - 1);
            random.pick(&[case.locations, MARKER - 1, any])
        })
    }),
    ("33 above: write of another line", write_of_another_line),
    ("33 above: issued", issued_above),
    ("33 above: a buffer's sum", |random| {
        buffer_sum(random, INSTRUCTIONS + 1)
    }),
    ("33 above: a queue's sum", |random| {
        queue_sum(random, sizes::QUEUED + 1)
    }),
];

const AT: [(&str, Maker); 14] = [
    ("33 at: last thread", last_thread),
    ("33 at: last line", last_line),
    ("33 at: entry's location", |random| {
        entry_names(random, |_, locations| locations - 1)
    }),
    ("33 at: sfence names none", sfence_names_none),
    ("33 at: marker's thread", |random| {
        bears_mark(random, |_, case| MARKER + case.threads - 1)
    }),
    ("33 at: marker of thread 0", |random| {
        bears_mark(random, |_, _| MARKER)
    }),
    ("33 at: write's location", |random| {
        of_last_location(random, |_| true)
    }),
    ("33 at: write of a shared line", |random| {
        of_last_location(random, shares)
    }),
    ("33 at: issued", issued_all),
    ("33 at: a buffer's sum", |random| {
        buffer_sum(random, INSTRUCTIONS)
    }),
    ("33 at: a queue's sum", |random| {
        queue_sum(random, sizes::QUEUED)
    }),
    ("33 at: queues together", queues_together),
    ("once 33: a buffer's sum", once_buffer_sum),
    ("once 33: a queue's sum", once_queue_sum),
];

pub fn all(random: &mut Random) -> Vec<Trial> {
    (0..120).flat_map(|_| each(random)).collect()
}

pub fn some(random: &mut Random) -> Vec<Trial> {
    each(random)
}

fn each(random: &mut Random) -> Vec<Trial> {
    let mut trials = Vec::new();
    for (makers, number) in [(&ABOVE[..], STATE_DOES_NOT_FIT), (&AT[..], FITS)] {
        for (name, maker) in makers {
            let scene = maker(random);
            let step = any_step(random, &scene.case);
            trials.push(scene.trial(random, name, number, step));
        }
    }
    trials
}

/// So many entries wait for a thread that the program lacks.
fn lacking_thread(random: &mut Random) -> Scene {
    let need = Need {
        threads: (1, THREADS - 1),
        spare: random.pick(&[1, 1, INSTRUCTIONS]),
        ..ANY
    };
    let mut scene = Scene::new(random, &need);
    let lacking = random.between(scene.case.threads, THREADS - 1);
    scene.state.buffers[usize::from(lacking)].count = random.between(1, need.spare);
    scene.fill(random);
    scene
}

/// So many entries in the queue of a line that the program lacks, though it may have a location of that
/// number.
fn lacking_line(random: &mut Random, has_location: bool) -> Scene {
    let need = Need {
        spare: random.pick(&[1, 1, 4]),
        ..ANY
    };
    let such: fn(&Case) -> bool = if has_location {
        shares
    } else {
        |case| case.lines < LOCATIONS
    };
    let mut scene = Scene::of_case(random, &need, such);
    let last = if has_location {
        scene.case.locations - 1
    } else {
        LOCATIONS - 1
    };
    let any = random.between(scene.case.lines, last);
    let lacking = random.pick(&[scene.case.lines, any]);
    scene.state.queues[usize::from(lacking)].count = random.between(1, need.spare);
    scene.fill(random);
    scene
}

/// Two locations on one line, so that the last location's number is no line's.
fn shares(case: &Case) -> bool {
    case.lines < case.locations
}

/// One entry names a location, drawn from the number of them.
fn entry_names(random: &mut Random, draw: fn(&mut Random, u8) -> u8) -> Scene {
    let need = Need {
        waiting: (1, INSTRUCTIONS),
        ..ANY
    };
    let mut scene = Scene::new(random, &need);
    let location = draw(random, scene.case.locations);
    let word = super::programs::word(random);
    let entries = scene.entries();
    entries[random.below(entries.len())] = random.pick(&[
        Entry::Store { location, word },
        Entry::Flush(location),
        Entry::FlushOpt(location),
    ]);
    scene
}

const QUEUED: Need = Need {
    length: (1, sizes::QUEUED),
    ..ANY
};

/// One mark in a queue, drawn for the program.
fn bears_mark(random: &mut Random, draw: fn(&mut Random, &Case) -> u8) -> Scene {
    let mut scene = Scene::new(random, &QUEUED);
    let mark = draw(random, &scene.case);
    scene.any_held(random).mark = mark;
    scene
}

fn write_of_another_line(random: &mut Random) -> Scene {
    let mut scene = Scene::of_case(random, &QUEUED, |case| case.lines > 1);
    let mark = random.pick(&layouts::elsewhere(&scene.case, scene.at));
    scene.any_held(random).mark = mark;
    scene
}

/// A write of the program's last location, in its line's queue.
fn of_last_location(random: &mut Random, such: fn(&Case) -> bool) -> Scene {
    loop {
        let mut scene = Scene::of_case(random, &QUEUED, such);
        if scene.at + 1 == scene.case.locations {
            let mark = scene.at;
            scene.any_held(random).mark = mark;
            return scene;
        }
    }
}

/// Of any thread, one that the program lacks too.
fn issued_above(random: &mut Random) -> Scene {
    let mut scene = Scene::new(random, &ANY);
    let thread = random.below(MOST_THREADS);
    scene.state.issued[thread] = random.beyond(scene.case.counts[thread] + 1);
    scene
}

fn issued_all(random: &mut Random) -> Scene {
    let need = Need {
        unissued: (0, 0),
        ..ANY
    };
    Scene::new(random, &need)
}

fn buffer_sum(random: &mut Random, sum: u8) -> Scene {
    let need = Need {
        spare: INSTRUCTIONS + 1,
        ..ANY
    };
    let mut scene = Scene::new(random, &need);
    let waiting = sum - scene.unissued(scene.thread);
    let above = random.beyond(waiting);
    scene.state.buffers[scene.thread].count = match sum {
        INSTRUCTIONS => waiting,
        _ => random.pick(&[waiting, waiting, waiting, above]),
    };
    scene.fill(random);
    scene
}

fn queue_sum(random: &mut Random, sum: u8) -> Scene {
    let mut scene = Scene::new(random, &ANY);
    let length = sum - scene.to_come();
    let above = random.beyond(length);
    let line = scene.line();
    scene.state.queues[line].count = match sum {
        sizes::QUEUED => length,
        _ => random.pick(&[length, length, length, above]),
    };
    scene.fill(random);
    scene
}

/// Each queue alone is within its limit, and all of them together are above it.
fn queues_together(random: &mut Random) -> Scene {
    let need = Need {
        length: (sizes::QUEUED / 2 + 1, sizes::QUEUED),
        ..ANY
    };
    let mut scene = Scene::of_case(random, &need, |case| case.lines > 1);
    let length = sizes::QUEUED - scene.to_come();
    let lines = usize::from(scene.case.lines);
    for queue in &mut scene.state.queues[..lines] {
        queue.count = length;
    }
    scene.fill(random);
    scene
}

/// A case that was read before, too.
const ONCE: Need = Need {
    locations: (1, once::LOCATIONS),
    unissued: (0, once::INSTRUCTIONS),
    instructions: once::INSTRUCTIONS,
    ..ANY
};

/// Above what was the limit, by one often.
fn once_buffer_sum(random: &mut Random) -> Scene {
    let need = Need {
        spare: INSTRUCTIONS,
        ..ONCE
    };
    let mut scene = Scene::new(random, &need);
    let (least, any) = (once::INSTRUCTIONS + 1, INSTRUCTIONS);
    let sum = random.between(least, any);
    let waiting = random.pick(&[least, sum]) - scene.unissued(scene.thread);
    scene.state.buffers[scene.thread].count = waiting;
    scene.fill(random);
    scene
}

fn once_queue_sum(random: &mut Random) -> Scene {
    let mut scene = Scene::new(random, &ONCE);
    while scene.to_come() > once::QUEUED {
        scene = Scene::new(random, &ONCE);
    }
    let (line, least) = (scene.line(), once::QUEUED + 1);
    let sum = random.between(least, sizes::QUEUED);
    let length = random.pick(&[least, sum]) - scene.to_come();
    scene.state.queues[line].count = length;
    scene.fill(random);
    scene
}

fn last_thread(random: &mut Random) -> Scene {
    let need = Need {
        waiting: (1, INSTRUCTIONS),
        ..ANY
    };
    loop {
        let scene = Scene::new(random, &need);
        if scene.thread + 1 == usize::from(scene.case.threads) {
            return scene;
        }
    }
}

fn last_line(random: &mut Random) -> Scene {
    loop {
        let scene = Scene::new(random, &QUEUED);
        if scene.line() + 1 == usize::from(scene.case.lines) {
            return scene;
        }
    }
}

/// In two frames of three the bytes of its location are junk.
fn sfence_names_none(random: &mut Random) -> Scene {
    let need = Need {
        waiting: (1, INSTRUCTIONS),
        ..ANY
    };
    let mut scene = Scene::new(random, &need);
    for entry in scene.entries() {
        *entry = Entry::Sfence;
    }
    scene
}
