//! Single fields of a case changed in memory between reading and writing.

use super::records::program;
use super::sketch::{any_layout, Fill, Sketch};
use super::valid::ROW;
use crate::judge::case::{Case, Instruction, REGISTERS, TOLD_LINES};
use crate::judge::case::{MOST_INSTRUCTIONS, MOST_LOCATIONS, MOST_STEPS, MOST_THREADS};
use crate::judge::form::fits;
use crate::judge::machine::rules::{COMPARE, STORE_REGISTER};
use crate::judge::reading::read;
use crate::streams::cases::answer::answer;
use crate::streams::cases::fields;
use crate::streams::cases::frame::{slot, Frame};
use crate::streams::layouts::Layout;
use crate::streams::random::Random;
use crate::streams::registers::{sets, takes, Registers};
use crate::streams::sizes::{INSTRUCTIONS, LONGEST_RECORD};

/// The fields from the first on, the end left out.
type Fields = (u32, u32);

const ALL: Fields = (1, fields::END);
/// Sizes, first contents, and how many instructions there are.
const SHAPE: Fields = (1, fields::CODE);
/// All but the steps, which are so many, and these.
const BEFORE_STEPS: Fields = (1, fields::STEPS);
const FIRST_STEPS: Fields = (1, fields::STEPS + 36);
const LAST_OF_STEPS: u32 = fields::VERSION - 1;
/// The fields of version and lines.
const LINES: Fields = (fields::VERSION, fields::END);

/// Every field, each with telling values; those of a step have every other one, and the next step's the others.
pub fn all(random: &mut Random) -> Vec<Frame> {
    let mut frames = Vec::new();
    for field in 1..fields::END {
        let (first, apart) = match field {
            fields::STEPS..=LAST_OF_STEPS => ((field - fields::STEPS) / 4 % 2, 2),
            _ => (0, 1),
        };
        for turn in (first as usize..8).step_by(apart) {
            let file = base(random);
            let value = value(random, &file, field, turn);
            frames.push(frame(random, file, field, value));
        }
    }
    for value in [0, 1, 255, 65536, u32::MAX] {
        for field in [0, fields::END, fields::END + 1, 2000, 65535, u32::MAX] {
            let file = base(random);
            frames.push(frame(random, file, field, value));
        }
    }
    frames
}

pub fn some(random: &mut Random) -> Vec<Frame> {
    (0..80)
        .map(|_| {
            let file = base(random);
            // The many steps must not crowd out the other fields.
            let (first, end) = random.pick(&[SHAPE, BEFORE_STEPS, FIRST_STEPS, ALL, LINES]);
            let field = first + random.below((end - first) as usize) as u32;
            let turn = random.below(8);
            let value = value(random, &file, field, turn);
            frame(random, file, field, value)
        })
        .collect()
}

/// Changes that leave a readable case, and another one; the filter only chooses what to ask.
pub fn readable(random: &mut Random) -> Vec<Frame> {
    let mut frames = Vec::new();
    while frames.len() < 600 {
        let file = base(random);
        let (first, end) = random.pick(&[
            SHAPE,
            (fields::CODE, fields::WANTED),
            (fields::WANTED, fields::COUNT),
            (fields::COUNT, fields::VERSION),
            LINES,
            (fields::LINE, fields::END),
        ]);
        let field = first + random.below((end - first) as usize) as u32;
        let turn = 1 + random.below(7);
        let value = value(random, &file, field, turn);
        let frame = frame(random, file, field, value);
        let answer = answer(&frame);
        if fits(&answer.changed) && answer.changed != answer.reading.case {
            frames.push(frame);
        }
    }
    frames
}

/// The version changed from 1 to 2 or back: readable where each location has a line of its own.
pub fn versions(random: &mut Random) -> Vec<Frame> {
    let change = |_| {
        let own = Layout::told(&[0, 1, 2]);
        let file = match random.below(3) {
            0 => program(2, &own).bytes(),
            _ => base(random),
        };
        let version = read(&file).case.version;
        frame(random, file, LINES.0, u32::from(3 - version))
    };
    (0..150).map(change).collect()
}

/// The operation of an instruction that there is: changed to a compare, from one, or to none at all.
pub fn operations(random: &mut Random) -> Vec<Frame> {
    let mut frames = Vec::new();
    while frames.len() < 200 {
        let file = base(random);
        let code = read(&file).case.code;
        let mut places: Vec<usize> = (0..code.len()).collect();
        let is_compare = |place: &usize| code[*place].operation == COMPARE;
        // The register of a store from one is set, so that a compare may stand there.
        let such: fn(u8) -> bool = match frames.len() % 4 {
            0 => |operation| operation == STORE_REGISTER,
            1 => |operation| operation > 0,
            _ => |operation| operation == COMPARE,
        };
        places.retain(|place| such(code[*place].operation));
        if let Some(place) = random.pick_some(&places) {
            let other = random.pick(&[1, 4, 4, 7, COMPARE + 1]);
            let new = random.pick(&[COMPARE, COMPARE + 1]);
            let operation = if is_compare(&place) { other } else { new };
            let field = fields::operation(place);
            frames.push(frame(random, file, field, operation.into()));
        }
    }
    frames
}

/// Cases that only an unset register makes unreadable: a store from one or a compare takes another, or what
/// set it no longer does. One in four is readable: another one was set too.
pub fn registers(random: &mut Random) -> Vec<Frame> {
    let mut frames = Vec::new();
    while frames.len() < 280 {
        let file = base(random);
        let unset = frames.len() % 4 > 0;
        if let Some((field, value)) = any_register(random, &read(&file).case, unset) {
            frames.push(frame(random, file, field, value));
        }
    }
    frames
}

/// A field and its value; none where no change of one does that.
pub fn any_register(random: &mut Random, case: &Case, unset: bool) -> Option<(u32, u32)> {
    let places = (0..case.code.len()).flat_map(|place| registered(case, place, unset));
    let places: Vec<(u32, u8)> = places.collect();
    let (field, value) = random.pick_some(&places)?;
    Some((field, value.into()))
}

/// Fields of the instruction at that place, with other values that leave a register unset, or none; all else
/// stays in range.
fn registered(case: &Case, place: usize, unset: bool) -> Vec<(u32, u8)> {
    let (one, first) = (
        case.code[place],
        place / MOST_INSTRUCTIONS * MOST_INSTRUCTIONS,
    );
    let (operation, register) = (fields::operation(place), fields::register(place));
    let others = (0..REGISTERS).filter(|&other| other != one.register);
    let mut tried: Vec<(u32, u8)> = match one.operation {
        2 | 3 => vec![(operation, 5 - one.operation)],
        4 | 9 => vec![(operation, 13 - one.operation)],
        _ => Vec::new(),
    };
    if takes(one.operation) || sets(one.operation) {
        tried.extend(others.map(|other| (register, other)));
    }
    tried.retain(|&(field, value)| {
        let mut changed = case.clone();
        if let Some(mut slot) = slot(&mut changed, field) {
            slot.set(value.into());
        }
        let thread = &changed.code[first..first + MOST_INSTRUCTIONS];
        leaves_unset(thread) == unset
    });
    tried
}

/// Some register is taken that nothing before has set.
fn leaves_unset(thread: &[Instruction]) -> bool {
    let taken = |at: usize| {
        let before = Registers::behind(&thread[..at]);
        takes(thread[at].operation) && !before.has(thread[at].register)
    };
    (0..thread.len()).any(taken)
}

/// Counts at their ends, junk behind them, wants with and without flag, versions and lines.
pub fn telling(random: &mut Random) -> Vec<Frame> {
    let mut frames = Vec::new();
    let own_lines = Layout::told(&[0, 1]);
    for (field, values) in [counts(), contents()].concat() {
        for value in values {
            for file in [
                ROW.to_vec(),
                base(random),
                Sketch::any(random).bytes(),
                program(1, &own_lines).bytes(),
                Vec::new(),
            ] {
                frames.push(frame(random, file, field, value));
            }
        }
    }
    frames
}

/// A field, and what it is set to.
type Tried = (u32, Vec<u32>);

/// Small numbers, those about the most, and the same above the field's width.
fn ends(field: u32, most: usize, width: u32) -> Tried {
    let most = most as u32;
    let within = [0, 1, 2, 3, most - 1, most, most + 1, 255];
    let above = within.map(|value| (1 << width) + value);
    (field, [within, above].concat())
}

/// How many there are of each thing, and the version.
fn counts() -> Vec<Tried> {
    let mut tried = vec![
        ends(fields::THREADS, MOST_THREADS, 8),
        ends(fields::LOCATIONS, MOST_LOCATIONS, 8),
        ends(fields::LINES, MOST_LOCATIONS, 8),
        ends(fields::COUNT, MOST_STEPS, 16),
        ends(fields::COUNT, MOST_STEPS, 8),
        ends(fields::VERSION, TOLD_LINES.into(), 16),
        ends(fields::VERSION, TOLD_LINES.into(), 8),
    ];
    for thread in 0..MOST_THREADS as u32 {
        tried.push(ends(fields::COUNTS + thread, MOST_INSTRUCTIONS, 8));
        tried.push(ends(fields::PASSED + thread, MOST_INSTRUCTIONS, 8));
    }
    tried
}

/// Operations, and what each location has.
fn contents() -> Vec<Tried> {
    let mut tried = Vec::new();
    for place in [0, 1, MOST_INSTRUCTIONS] {
        let operations = vec![0, 1, 4, 8, 9, 10, 11, 255, 265, 266];
        tried.push((fields::operation(place), operations));
    }
    for location in 0..MOST_LOCATIONS as u32 {
        let words = vec![0, 1, 256, 65536, 1 << 31];
        let flags = vec![0, 1, 2, 256, 65536, 1 << 31];
        let last = MOST_LOCATIONS as u32 - 1;
        let lines = vec![0, 1, 2, last, last + 1, 255, 256, 257];
        tried.push((fields::FIRSTS + location, words.clone()));
        tried.push((fields::WANTED + location, flags));
        tried.push((fields::WANTS + location, words));
        tried.push((fields::LINE + location, lines));
    }
    tried
}

/// The file that is read before the change: small and large, accepted and refused.
fn base(random: &mut Random) -> Vec<u8> {
    match random.below(16) {
        0 => Vec::new(),
        1 => ROW.to_vec(),
        2 => Sketch::longest(random).bytes(),
        3..=5 => Sketch::lively(random).bytes(),
        6..=9 => Sketch::any(random).bytes(),
        _ => {
            let fill = Fill {
                instructions: (4, INSTRUCTIONS),
                steps: (0, 40),
                eighths: 4,
            };
            let (threads, layout) = (random.between(3, 4), any_layout(random, 4));
            Sketch::new(random, threads, layout, &fill).bytes()
        }
    }
}

/// By turn: what the field holds, the same after truncation, neighbours, ends, anything.
fn value(random: &mut Random, file: &[u8], field: u32, turn: usize) -> u32 {
    let mut case = read(file).case;
    let held = slot(&mut case, field).map_or(0, |slot| slot.get());
    match turn {
        0 => held,
        1 => held.wrapping_add(random.pick(&[256, 65536, 1 << 24])),
        2 => held.wrapping_add(1),
        3 => held.wrapping_sub(1),
        4 => 0,
        5 => random.below(MOST_LOCATIONS + 3) as u32,
        6 => {
            let size = random.pick(&[MOST_THREADS, MOST_INSTRUCTIONS, MOST_LOCATIONS, MOST_STEPS]);
            let size = size as u32;
            random.pick(&[size, size + 1, size + 1, 9, 10, 255, 65535, u32::MAX])
        }
        _ => random.word(),
    }
}

/// Mostly room for the changed case, which may have one record more.
fn frame(random: &mut Random, input: Vec<u8>, field: u32, value: u32) -> Frame {
    let length = input.len().max(8) as u32;
    let room = match random.below(8) {
        0 => length - 1,
        1 => length,
        2 => random.below(8) as u32,
        _ => length + LONGEST_RECORD as u32,
    };
    Frame {
        input,
        field,
        value,
        room,
    }
}
