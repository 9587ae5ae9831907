//! Number 10: a store from a register, or a compare with it, that nothing before it in its thread has set.
//! Alone, with a second fault in its record, and with one in an earlier record or a later one.

use super::records::*;
use super::sketch::{any_layout, Sketch};
use super::spoil::*;
use crate::judge::case::MOST_INSTRUCTIONS;
use crate::streams::cases::frame::Frame;
use crate::streams::cases::marks::marked;
use crate::streams::random::Random;
use crate::streams::registers::Registers;
use crate::streams::sizes::INSTRUCTIONS;

/// The instructions of a thread.
fn own(before: &[Record], thread: u8) -> impl Iterator<Item = &Record> {
    let of_thread = move |one: &&Record| one.kind == 3 && one.payload[0] == thread;
    before.iter().filter(of_thread)
}

/// An instruction of the thread, all in range, whose register nothing before has set; none where all are.
fn unset_in(random: &mut Random, before: &[Record], thread: u8) -> Option<Record> {
    let mut registers = Registers::default();
    own(before, thread).for_each(|one| registers.add(one.payload[1], one.payload[3]));
    let register = registers.unset(random)?;
    let locations = before.first().map_or(1, |program| program.payload[3]);
    let location = random.between(0, locations - 1);
    let word = random.word();
    let (operation, word) = random.pick(&[(2, 0), (9, word)]);
    Some(instruction([thread, operation, location, register], word))
}

/// The thread of the last instruction, or the first thread of all.
fn last_thread(before: &[Record]) -> u8 {
    let last = before.iter().rev().find(|one| one.kind == 3);
    last.map_or(0, |one| one.payload[0])
}

/// A place where an instruction may stand, and such a one.
fn unset(random: &mut Random) -> (Sketch, Vec<Record>, Record) {
    loop {
        let sketch = match random.one_in(2) {
            true => Sketch::lively(random),
            false => Sketch::any(random),
        };
        let before = valid_part(random, &sketch, 3);
        let thread = random.between(last_thread(&before), sketch.threads - 1);
        let record = unset_in(random, &before, thread)
            .filter(|_| own(&before, thread).count() < MOST_INSTRUCTIONS);
        if let Some(record) = record {
            return (sketch, before, record);
        }
    }
}

pub fn unset_register(random: &mut Random) -> Faulty {
    let (_, before, record) = unset(random);
    whole(random, &before, record.bytes(), 10)
}

pub fn cut_head_unset(random: &mut Random) -> Faulty {
    let (_, before, record) = unset(random);
    let mut record = record.bytes();
    record.truncate(1 + random.below(3));
    Faulty {
        before,
        record,
        after: Vec::new(),
        number: 1,
    }
}

pub fn unknown_kind_unset(random: &mut Random) -> Faulty {
    let (_, before, mut record) = unset(random);
    record.kind = strange_kind(random);
    whole(random, &before, record.bytes(), 2)
}

pub fn wrong_length_unset(random: &mut Random) -> Faulty {
    let (_, before, record) = unset(random);
    let length = odd_length(random, 3);
    whole(random, &before, record.with_length(length), 3)
}

pub fn cut_unset(random: &mut Random) -> Faulty {
    let (_, before, record) = unset(random);
    cut(random, &before, record.bytes(), 1)
}

/// The location or the thread: of a register out of range nothing is said.
pub fn out_of_range_unset(random: &mut Random) -> Faulty {
    let (sketch, before, mut record) = unset(random);
    let exits = [
        (0, random.beyond(sketch.threads)),
        (2, random.beyond(sketch.locations)),
    ];
    let (field, value) = random.pick(&exits);
    record.payload[field] = value;
    whole(random, &before, record.bytes(), 5)
}

/// A store from a register has no word; a compare uses every field.
pub fn unused_set_unset(random: &mut Random) -> Faulty {
    let (_, before, mut record) = unset(random);
    record.payload[1] = 2;
    record.payload[4..].copy_from_slice(&random.nonzero_word().to_le_bytes());
    whole(random, &before, record.bytes(), 8)
}

/// A place and a thread, drawn until it has a register that is not set.
fn drawn(random: &mut Random, place: fn(&mut Random) -> (Vec<Record>, u8), number: u8) -> Faulty {
    loop {
        let (before, thread) = place(random);
        if let Some(record) = unset_in(random, &before, thread) {
            return whole(random, &before, record.bytes(), number);
        }
    }
}

pub fn out_of_place_unset(random: &mut Random) -> Faulty {
    let place = |random: &mut Random| {
        let (sketch, before, _) = misplaced(random, 3);
        (before, random.between(0, sketch.threads - 1))
    };
    drawn(random, place, 4)
}

pub fn order_broken_unset(random: &mut Random) -> Faulty {
    let place = |random: &mut Random| {
        let (_, before, thread) = disorder(random, 3);
        (before, thread)
    };
    drawn(random, place, 6)
}

pub fn one_more_unset(random: &mut Random) -> Faulty {
    let place = |random: &mut Random| {
        let (_, before, thread) = full_thread(random);
        (before, thread)
    };
    drawn(random, place, 7)
}

/// The same file with such an instruction before its faulty record; none where none may stand there.
pub fn set_before(random: &mut Random, faulty: &Faulty) -> Option<Faulty> {
    let records = &faulty.before;
    let lower = |kind: u16| records.iter().filter(|one| one.kind < kind).count();
    let (first, last) = (lower(3), lower(4));
    let place = first + random.below(last - first + 1);
    let (before, rest) = records.split_at(place);
    let next = rest.first().filter(|one| one.kind == 3);
    let next = next.map_or(last_thread(before), |one| one.payload[0]);
    let thread = random.pick(&[last_thread(before), next]);
    if before.is_empty() || own(before, thread).count() == MOST_INSTRUCTIONS {
        return None;
    }
    let record = unset_in(random, before, thread)?;
    Some(Faulty {
        before: before.to_vec(),
        record: record.bytes(),
        after: [&join(rest), &faulty.record[..], &faulty.after].concat(),
        number: 10,
    })
}

/// The same file with such an instruction behind its faulty record, which is whole.
pub fn set_behind(random: &mut Random, faulty: &Faulty) -> Option<Faulty> {
    let record = unset_in(random, &faulty.before, last_thread(&faulty.before))?;
    Some(Faulty {
        before: faulty.before.clone(),
        record: faulty.record.clone(),
        after: record.bytes(),
        number: faulty.number,
    })
}

/// What takes a register's word, at each place of its thread: behind what sets the register, at each place
/// before it; behind what sets another one, or another thread's; before what sets it; and alone.
pub fn places(random: &mut Random) -> Vec<Frame> {
    let mut frames = Vec::new();
    for at in 0..INSTRUCTIONS {
        for taker in [2, 9] {
            let register = random.between(0, 3);
            let (other, taken) = ((register + random.between(1, 3)) % 4, (taker, register));
            frames.push(placed(random, &[&[(at, taken)]], 10));
            for (before, setter) in (0..at).flat_map(|before| [(before, 3), (before, 4)]) {
                let (set, another) = ((before, (setter, register)), (before, (setter, other)));
                frames.push(placed(random, &[&[set, (at, taken)]], 0));
                frames.push(placed(random, &[&[another, (at, taken)]], 10));
                frames.push(placed(random, &[&[set], &[(at, taken)]], 10));
                // A compare, which itself needs a load, sets it once more.
                let again = (before, (9, register));
                let loaded = (0, (3, register));
                frames.push(placed(random, &[&[loaded, again, (at, taken)]], 0));
            }
        }
    }
    frames
}

/// An operation and its register.
type Given = (u8, u8);

/// Threads with these instructions at their places, the first at a place being the one there, and between them
/// such as have no register. The last record decides.
fn placed(random: &mut Random, threads: &[&[(u8, Given)]], number: u8) -> Frame {
    let layout = any_layout(random, 1);
    let mut records = vec![program(threads.len() as u8, &layout)];
    for (thread, given) in (0..).zip(threads) {
        let last = given.iter().map(|(place, _)| *place).max().unwrap_or(0);
        for place in 0..=last {
            let blank = (random.pick(&[7, 8]), 0);
            let here = given.iter().find(|(at, _)| *at == place);
            let (operation, register) = here.map_or(blank, |&(_, given)| given);
            records.push(instruction([thread, operation, 0, register], 0));
        }
    }
    let input = join(&records);
    let (name, offset) = match number {
        0 => ("register set before", input.len()),
        _ => ("register not set before", input.len() - 12),
    };
    let length = input.len() as u32;
    let room = random.pick(&[0, 8, length, length - 1]);
    marked(name, number, offset, input, room)
}
