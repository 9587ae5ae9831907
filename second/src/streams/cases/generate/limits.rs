//! Every size at its limit and one beyond it, and the same at the limits that there were before: what was
//! refused for its size alone is read.

use super::boundaries::frame;
use super::records::*;
use super::sketch::Sketch;
use crate::judge::case::{MOST_INSTRUCTIONS, MOST_LOCATIONS, MOST_STEPS, POSITIONS};
use crate::streams::cases::frame::Frame;
use crate::streams::layouts::Layout;
use crate::streams::once;
use crate::streams::random::Random;
use crate::streams::sizes::{INSTRUCTIONS, LOCATIONS, THREADS};

/// What else a file may have.
struct Room {
    locations: u8,
    instructions: u8,
    positions: u8,
}

const NOW: Room = Room {
    locations: LOCATIONS,
    instructions: INSTRUCTIONS,
    positions: POSITIONS,
};

const BEFORE: Room = Room {
    locations: once::LOCATIONS,
    instructions: once::INSTRUCTIONS,
    positions: once::INSTRUCTIONS,
};

/// A file with so many, of which the last record decides.
type Maker = fn(&mut Random, &Room, usize) -> Vec<Record>;

/// What is limited, its maker, the limit, the one before, and what one more is refused with.
const LIMITS: [(&str, Maker, usize, u8, u8); 5] = [
    (
        "instructions",
        instructions,
        MOST_INSTRUCTIONS,
        once::INSTRUCTIONS,
        7,
    ),
    ("locations", own, MOST_LOCATIONS, once::LOCATIONS, 5),
    ("told lines", told, MOST_LOCATIONS, once::LOCATIONS, 3),
    ("steps", steps, MOST_STEPS, once::STEPS as u8, 9),
    (
        "positions",
        positions,
        POSITIONS as usize,
        once::INSTRUCTIONS,
        5,
    ),
];

pub fn all(random: &mut Random) -> Vec<Frame> {
    let mut frames = Vec::new();
    for (what, maker, limit, before, number) in LIMITS {
        let before = usize::from(before);
        for (name, room, count, number) in [
            (format!("limit: {what}"), &NOW, limit, 0),
            (format!("beyond: {what}"), &NOW, limit + 1, number),
            (format!("once a limit: {what}"), &BEFORE, before, 0),
            (format!("once {number}: {what}"), &BEFORE, before + 1, 0),
        ] {
            for _ in 0..40 {
                let records = maker(random, room, count);
                frames.push(frame(random, &name, &records, number));
            }
        }
    }
    for _ in 0..40 {
        for (name, line, number) in [
            ("limit: persisted lines", LOCATIONS - 1, 0),
            ("beyond: persisted lines", LOCATIONS, 5),
        ] {
            let records = persist(random, line);
            frames.push(frame(random, name, &records, number));
        }
    }
    frames.extend((0..16).flat_map(|_| longest(random)));
    frames
}

/// The longest file, and a step more.
fn longest(random: &mut Random) -> [Frame; 2] {
    let sketch = Sketch::longest(random);
    let mut records = sketch.records();
    let last = frame(random, "limit: steps", &records, 0);
    records.push(sketch.record(random, 6));
    [last, frame(random, "beyond: steps", &records, 9)]
}

fn any_layout(random: &mut Random, room: &Room) -> Layout {
    let locations = random.between(1, room.locations);
    Layout::draw(random, locations)
}

/// Of one thread, behind any number of those before it.
fn instructions(random: &mut Random, room: &Room, count: usize) -> Vec<Record> {
    let layout = any_layout(random, room);
    let thread = random.between(0, THREADS - 1);
    let mut records = vec![program(THREADS, &layout)];
    for before in 0..thread {
        let few = random.between(0, room.instructions);
        records.extend(random_thread(random, before, few, layout.locations()));
    }
    let code = random_thread(random, thread, count as u8, layout.locations());
    [records, code].concat()
}

/// A header of version 1.
fn own(random: &mut Random, _: &Room, count: usize) -> Vec<Record> {
    vec![program(
        random.between(1, THREADS),
        &Layout::own(count as u8),
    )]
}

/// A header of version 2.
fn told(random: &mut Random, _: &Room, count: usize) -> Vec<Record> {
    let layout = Layout::draw(random, count as u8);
    let threads = random.between(1, THREADS);
    vec![program(threads, &Layout::told(&layout.line))]
}

fn steps(random: &mut Random, room: &Room, count: usize) -> Vec<Record> {
    let layout = any_layout(random, room);
    let threads = random.between(1, THREADS);
    let step = |_| loop {
        let step = random_step(random, threads, layout.lines());
        if step.payload[2] < room.positions {
            return step;
        }
    };
    let steps: Vec<Record> = (0..count).map(step).collect();
    [vec![program(threads, &layout)], steps].concat()
}

/// A move from the last of so many.
fn positions(random: &mut Random, room: &Room, count: usize) -> Vec<Record> {
    let threads = random.between(1, THREADS);
    let thread = random.between(0, threads - 1);
    let layout = any_layout(random, room);
    let last = Record::new(6, &[thread, 1, count as u8 - 1, 0]);
    vec![program(threads, &layout), last]
}

/// A persist of that line, where each location has its own.
fn persist(random: &mut Random, line: u8) -> Vec<Record> {
    let own = Layout::own(LOCATIONS);
    let layout = match random.one_in(2) {
        true => Layout::told(&own.line),
        false => own,
    };
    vec![program(1, &layout), Record::new(6, &[0, 2, 0, line])]
}
