//! Small programs of which two states are the same but for one part, made for each part: whoever leaves it out
//! counts too few.

use super::loans::of_case;
use crate::judge::case::{Case, Instruction, REGISTERS};
use crate::streams::layouts::{self, Layout};
use crate::streams::machine::generate::programs::{add, instruction, word};
use crate::streams::question::generate::wants;
use crate::streams::random::Random;
use crate::streams::registers::{mend, EVERY};
use crate::streams::remember::frame::Loan;
use crate::streams::sizes::{LOCATIONS, THREADS};

/// What two threads do it with: three locations, a register, and two words that differ and are not 0.
struct Scene {
    at: [u8; 3],
    register: u8,
    words: [u32; 2],
}

/// The instructions of the two threads, and whether the locations are on one line.
type Plot = (bool, fn(&Scene) -> [Vec<Instruction>; 2]);

const PLOTS: [Plot; 8] = [
    // Either write is the later one: words, queues, a write's word.
    (false, |s| [vec![store(s, 0, 0)], vec![store(s, 0, 1)]]),
    // Loaded before the write or behind it: registers.
    (false, |s| [vec![load(s, 0)], vec![store(s, 0, 1)]]),
    // Issued or not: issued counts.
    (false, |s| [vec![store(s, 0, 0)], vec![fence(8)]]),
    // Either marker is the older one: a marker's thread.
    (false, |s| [vec![flush_opt(s, 0)], vec![flush_opt(s, 0)]]),
    // One word in two locations, in either order: a write's location.
    (true, |s| [vec![store(s, 0, 0)], vec![store(s, 1, 0)]]),
    // A write of 0 is the older one, or a marker: a write or a marker.
    (false, |s| {
        let zero = Instruction::new(1, s.at[0], 0, 0);
        [vec![zero], vec![flush_opt(s, 0)]]
    }),
    // A word on its way that its register has forgotten: a store's word, buffers.
    (false, |s| {
        let handed = Instruction::new(2, s.at[1], s.register, 0);
        let code = vec![load(s, 0), handed, load(s, 2)];
        [code, vec![store(s, 0, 1)]]
    }),
    // Either one has left, and both leave the same marker: a flush-opt's location.
    (true, |s| {
        [vec![flush_opt(s, 0), flush_opt(s, 1)], vec![fence(7)]]
    }),
];

fn store(scene: &Scene, location: usize, word: usize) -> Instruction {
    Instruction::new(1, scene.at[location], 0, scene.words[word])
}

fn load(scene: &Scene, location: usize) -> Instruction {
    Instruction::new(3, scene.at[location], scene.register, 0)
}

fn flush_opt(scene: &Scene, location: usize) -> Instruction {
    Instruction::new(6, scene.at[location], 0, 0)
}

fn fence(operation: u8) -> Instruction {
    Instruction::new(operation, 0, 0, 0)
}

/// Each plot in its turn, which says where it is set.
const TURNS: usize = 64;

pub fn all(random: &mut Random) -> Vec<Vec<Loan>> {
    let mut cases = Vec::new();
    for turn in 0..TURNS {
        for plot in &PLOTS {
            let case = draw(random, plot, turn);
            cases.push(of_case(random, &case));
        }
    }
    cases
}

/// Mostly in a program as large as there may be, at its last location, thread and register every other time; now
/// and then with an instruction more.
fn draw(random: &mut Random, (on_one_line, code): &Plot, turn: usize) -> Case {
    let is_set = |bit: usize| turn >> bit & 1 == 1;
    let is_small = turn % 8 == 0;
    let (threads, locations) = if is_small {
        (2, 3)
    } else {
        (THREADS, LOCATIONS)
    };
    let (last, first) = (locations - 1, random.between(0, locations - 3));
    let written = word(random).max(2);
    let scene = Scene {
        at: if is_set(0) {
            [last, 1, 0]
        } else {
            [first, first + 1, last]
        },
        register: if is_set(1) { REGISTERS - 1 } else { 0 },
        words: [written, written ^ 1],
    };
    let mut case = layouts::case(threads, &layout(&scene, locations, *on_one_line));
    let owners = if is_set(2) {
        [threads - 1, 0]
    } else {
        [0, threads - 1]
    };
    for (thread, code) in owners.into_iter().zip(code(&scene)) {
        for one in code {
            add(&mut case, thread.into(), one);
        }
    }
    if random.one_in(3) {
        let operation = random.pick(&EVERY);
        let more = instruction(random, operation, locations);
        add(&mut case, owners[1].into(), more);
    }
    mend(random, &mut case);
    ask(random, &mut case, &scene);
    case
}

/// The scene's locations on one line, all others on their own; or each on its own.
fn layout(scene: &Scene, locations: u8, on_one_line: bool) -> Layout {
    if !on_one_line {
        return Layout::own(locations);
    }
    let first = scene.at.iter().min().copied().unwrap_or(0);
    let mut next = 0;
    let mut lines: Vec<u8> = Vec::new();
    for at in 0..locations {
        if at > first && scene.at.contains(&at) {
            lines.push(lines[usize::from(first)]);
        } else {
            lines.push(next);
            next += 1;
        }
    }
    Layout::told(&lines)
}

/// Mostly for what is not to be had, so that all states are gone through.
fn ask(random: &mut Random, case: &mut Case, scene: &Scene) {
    if random.one_in(4) {
        return wants::add(random, case);
    }
    let never = scene.words[0] ^ 1 << 20;
    wants::want(case, scene.at[0].into(), never);
}
