//! Places of a valid file and ways to spoil the record that stands there.

use super::records::*;
use super::sketch::Sketch;
use crate::judge::case::{MOST_STEPS, POSITIONS, REGISTERS};
use crate::streams::random::Random;
use crate::streams::sizes::*;

/// A valid part, then the faulty record; the number is the one that must be answered.
pub struct Faulty {
    pub before: Vec<Record>,
    pub record: Vec<u8>,
    /// What stands behind: nothing where the record is cut.
    pub after: Vec<u8>,
    pub number: u8,
}

/// A faulty record in the midst: behind it stands nothing, junk, or a valid record.
pub fn whole(random: &mut Random, before: &[Record], record: Vec<u8>, number: u8) -> Faulty {
    let after = match random.below(4) {
        0 => Vec::new(),
        1 => {
            let length = random.below(20);
            random.bytes(length)
        }
        2 => record.clone(),
        _ => random_step(random, 1, 1).bytes(),
    };
    Faulty {
        before: before.to_vec(),
        record,
        after,
        number,
    }
}

/// A record cut so that its head stands and at least one payload byte lacks.
pub fn cut(random: &mut Random, before: &[Record], mut record: Vec<u8>, number: u8) -> Faulty {
    record.truncate(4 + random.below(record.len() - 4));
    Faulty {
        before: before.to_vec(),
        record,
        after: Vec::new(),
        number,
    }
}

pub fn any_kind(random: &mut Random) -> u16 {
    random.pick(&[1, 2, 3, 4, 5, 6])
}

pub fn strange_kind(random: &mut Random) -> u16 {
    let any = 7 + random.below(65529) as u16;
    random.pick(&[0, 7, 8, 255, 256, 257, 259, 262, 0x0600, 65535, any])
}

/// A length that no record of the kind has.
pub fn odd_length(random: &mut Random, kind: u16) -> u16 {
    let (least, most) = LENGTHS[usize::from(kind) - 1];
    let any = random.below(65536) as u16;
    let near = [
        most + 1,
        least - 1,
        least + 256,
        most + 256,
        0,
        4,
        5,
        8,
        2,
        65535,
        any,
    ];
    loop {
        let length = random.pick(&near);
        if !(least..=most).contains(&length) {
            return length;
        }
    }
}

/// A valid part up to a place where a record of the kind may stand.
pub fn valid_part(random: &mut Random, sketch: &Sketch, kind: u16) -> Vec<Record> {
    let few = match kind {
        1 => 0,
        _ => random.below(sketch.sections[usize::from(kind) - 1].len() + 1),
    };
    sketch.before(kind, few)
}

/// A place where a record of the kind is out of place, and such a record.
pub fn misplaced(random: &mut Random, kind: u16) -> (Sketch, Vec<Record>, Record) {
    let sketch = Sketch::lively(random);
    let record = sketch.record(random, kind);
    let before = if kind == 1 {
        let last = any_kind(random);
        sketch.before(last, sketch.sections[usize::from(last) - 1].len())
    } else if kind == 6 || random.one_in(4) {
        Vec::new()
    } else {
        let higher = random.between(kind as u8 + 1, 6);
        sketch.before(higher.into(), 1)
    };
    (sketch, before, record)
}

/// A place in a section of kind 2 to 5, and a thread or location that breaks the order there.
pub fn disorder(random: &mut Random, kind: u16) -> (Sketch, Vec<Record>, u8) {
    loop {
        let sketch = Sketch::lively(random);
        let section = &sketch.sections[usize::from(kind) - 1];
        let few = 1 + random.below(section.len());
        // The same thread again is no fault in kind 3.
        let bound = section[few - 1].payload[0] + u8::from(kind != 3);
        if bound > 0 {
            let before = sketch.before(kind, few);
            return (sketch, before, random.between(0, bound - 1));
        }
    }
}

/// A file whose last thread so far has as many instructions as it may have.
pub fn full_thread(random: &mut Random) -> (Sketch, Vec<Record>, u8) {
    let mut sketch = Sketch::lively(random);
    let full = random.between(0, sketch.threads - 1);
    sketch.sections[2].clear();
    for thread in 0..=full {
        let count = if thread == full {
            INSTRUCTIONS
        } else {
            random.between(0, INSTRUCTIONS)
        };
        sketch.fill_thread(random, thread, count);
    }
    let before = sketch.before(3, sketch.sections[2].len());
    (sketch, before, full)
}

/// A file with the most steps.
pub fn full_steps(random: &mut Random) -> (Sketch, Vec<Record>) {
    let mut sketch = Sketch::lively(random);
    while sketch.sections[5].len() < MOST_STEPS {
        let step = sketch.record(random, 6);
        sketch.sections[5].push(step);
    }
    let before = sketch.records();
    (sketch, before)
}

/// Puts one used field out of range; a field that is unused stays as it is.
pub fn leave_range(random: &mut Random, sketch: &Sketch, record: &mut Record) {
    match record.kind {
        1 => leave_program_range(random, &mut record.payload),
        2 | 4 => record.payload[0] = random.beyond(sketch.locations),
        3 => {
            let exits = instruction_exits(random, sketch, record);
            let (field, value) = random.pick(&exits);
            record.payload[field] = value;
        }
        5 => {
            let [thread, least] = [record.payload[0], record.payload[1]];
            // A count of 0 is kept: it is the other fault of a pair.
            if least == 0 || random.one_in(2) {
                record.payload[0] = random.beyond(sketch.threads);
            } else {
                record.payload[1] = random.beyond(sketch.counts[usize::from(thread)] + 1);
            }
        }
        _ => {
            let exits = step_exits(random, sketch, record);
            let (field, value) = random.pick(&exits);
            record.payload[field] = value;
        }
    }
}

fn leave_program_range(random: &mut Random, payload: &mut [u8]) {
    match random.below(3) {
        0 => {
            let version: u16 = random.pick(&[0, 3, 4, 256, 257, 258, 512, 65535]);
            payload[..2].copy_from_slice(&version.to_le_bytes());
        }
        1 => payload[2] = random.pick(&[0, THREADS + 1, THREADS + 2, 128, 255]),
        _ => payload[3] = random.pick(&[0, LOCATIONS + 1, LOCATIONS + 2, 128, 255]),
    }
}

/// The used fields of an instruction with values out of range.
fn instruction_exits(random: &mut Random, sketch: &Sketch, record: &Record) -> Vec<(usize, u8)> {
    let [location, register, _] = OPERATION_USES[usize::from(record.payload[1]) - 1];
    let bad_operation = random.beyond(10);
    let mut exits = vec![
        (0, random.beyond(sketch.threads)),
        (1, random.pick(&[0, 10, bad_operation])),
    ];
    if location {
        exits.push((2, random.beyond(sketch.locations)));
    }
    if register {
        exits.push((3, random.beyond(REGISTERS)));
    }
    exits
}

/// The used fields of a step with values out of range.
fn step_exits(random: &mut Random, sketch: &Sketch, record: &Record) -> Vec<(usize, u8)> {
    let [thread, position, line] = CODE_USES[usize::from(record.payload[1])];
    let mut exits = vec![(1, random.beyond(3))];
    if thread {
        exits.push((0, random.beyond(sketch.threads)));
    }
    if position {
        exits.push((2, random.beyond(POSITIONS)));
    }
    if line {
        exits.push((3, random.beyond(sketch.layout.lines())));
    }
    exits
}

/// A record of kind 2, 3, 5 or 6, in range, that is a matter for 8: of a thread or location,
/// or of any.
pub fn with_unused_set(random: &mut Random, sketch: &Sketch, kind: u16, at: Option<u8>) -> Record {
    loop {
        let mut record = match at {
            Some(at) => sketch.record_at(random, kind, at),
            None => sketch.record(random, kind),
        };
        match kind {
            2 => record.payload[1..].fill(0),
            5 => record.payload[1] = 0,
            _ => {
                let unused = unused_bytes(&record);
                if unused.is_empty() {
                    continue;
                }
                let field = random.pick(&unused);
                let junk = random.between(1, 255);
                record.payload[field] = random.pick(&[1, 255, junk]);
            }
        }
        return record;
    }
}

/// The payload bytes that an instruction or step does not use.
fn unused_bytes(record: &Record) -> Vec<usize> {
    let fields: Vec<(usize, bool)> = if record.kind == 3 {
        let [location, register, word] = OPERATION_USES[usize::from(record.payload[1]) - 1];
        let small = vec![(2, location), (3, register)];
        small
            .into_iter()
            .chain((4..8).map(|byte| (byte, word)))
            .collect()
    } else {
        let [thread, position, line] = CODE_USES[usize::from(record.payload[1])];
        vec![(0, thread), (2, position), (3, line)]
    };
    let unused = fields.into_iter().filter(|(_, used)| !used);
    unused.map(|(byte, _)| byte).collect()
}
