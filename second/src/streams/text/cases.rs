//! The cases that texts are written of, from a seed: programs of all sizes, questions, runs.

use super::written::Written;
use crate::judge::ask::{search, End};
use crate::judge::case::{Case, Step, MOST_STEPS, MOST_THREADS};
use crate::judge::reading::read;
use crate::streams::cases::generate::sketch::Sketch;
use crate::streams::cases::generate::valid::ROW;
use crate::streams::layouts::{self, Layout};
use crate::streams::machine::frame::Trial;
use crate::streams::machine::generate::programs::{add, any, dress, instruction, program, EVERY};
use crate::streams::machine::generate::runs::{self, walk};
use crate::streams::parts::{hand_out, Part, Take};
use crate::streams::random::Random;
use crate::streams::registers::mend;
use crate::streams::sizes::{LOCATIONS, THREADS};
use std::io;

/// A question counts as decided if so many runs of the walk decide it.
pub const BUDGET: u32 = 300;

/// Made once, whatever the number of cases asked for.
const ONCE: [Part<Written>; 4] = [
    |random| written(random, |_| vec![read(&ROW).case]),
    |random| written(random, empty),
    |random| written(random, longest),
    |random| written(random, every_operation),
];

/// Made in turn until there are enough cases.
const AGAIN: [Part<Written>; 6] = [
    |random| written(random, without_runs),
    |random| written(random, with_any_steps),
    |random| written(random, decided),
    |random| written(random, too_long),
    |random| written(random, |random| of_trials(&runs::some(random))),
    |random| written(random, |random| of_trials(&runs::ended(random))),
];

/// Hands out at least `count` cases, part by part.
pub fn all(seed: u64, count: u64, take: Take<Written>) -> io::Result<()> {
    hand_out(&ONCE, &AGAIN, seed, count, take)
}

fn written(random: &mut Random, part: Part<Case>) -> Vec<Written> {
    let cases = part(random);
    cases.iter().map(|case| Written::of(random, case)).collect()
}

/// Each number of locations, on lines in any way and on a line each that the text says.
fn empty(random: &mut Random) -> Vec<Case> {
    let mut cases = Vec::new();
    for locations in 1..=LOCATIONS {
        let counts = vec![0; 1 + usize::from(locations) % MOST_THREADS];
        cases.push(program(random, locations, &counts, &EVERY));
        let own = Layout::own(locations);
        cases.push(layouts::case(1, &Layout::told(&own.line)));
    }
    cases
}

fn longest(random: &mut Random) -> Vec<Case> {
    let files = (0..20).map(|_| Sketch::longest(random).bytes());
    files.map(|file| read(&file).case).collect()
}

/// Each operation once, in any order in which it may stand there, by two threads.
fn every_operation(random: &mut Random) -> Vec<Case> {
    let mut cases = Vec::new();
    while cases.len() < 60 {
        let locations = random.between(1, LOCATIONS);
        let mut case = program(random, locations, &[0, 0], &EVERY);
        let mut left: Vec<u8> = (1..=9).collect();
        while !left.is_empty() {
            let operation = left.swap_remove(random.below(left.len()));
            let made = instruction(random, operation, locations);
            add(&mut case, left.len() % 2, made);
        }
        mend(random, &mut case);
        dress(random, &mut case);
        // What was mended may have become another operation.
        if (1..=9).all(|one| case.code.iter().any(|made| made.operation == one)) {
            cases.push(case);
        }
    }
    cases
}

pub fn sketched(random: &mut Random, count: usize) -> Vec<Case> {
    let files = (0..count).map(|_| Sketch::any(random).bytes());
    files.map(|file| read(&file).case).collect()
}

fn without_runs(random: &mut Random) -> Vec<Case> {
    let mut cases = sketched(random, 60);
    for case in &mut cases {
        case.count = 0;
        case.steps = [Step::default(); MOST_STEPS];
    }
    cases
}

fn with_any_steps(random: &mut Random) -> Vec<Case> {
    sketched(random, 12)
}

fn decided(random: &mut Random) -> Vec<Case> {
    (0..60).map(|_| draw_decided(random)).collect()
}

fn draw_decided(random: &mut Random) -> Case {
    loop {
        let case = asking(random);
        if !matches!(search(&case, BUDGET).end, End::Undecided) {
            return case;
        }
    }
}

/// Small, and mostly what some run leaves.
fn asking(random: &mut Random) -> Case {
    let threads = random.between(1, THREADS);
    let most = [5, 2, 2, 1][usize::from(threads) - 1];
    let counts: Vec<u8> = (0..threads).map(|_| random.between(0, most)).collect();
    let locations = random.pick(&[1, 2, 2, 3, LOCATIONS]);
    let mut case = program(random, locations, &counts, &EVERY);
    dress(random, &mut case);
    let length = random.below(12);
    let (_, state) = walk(random, &case, length);
    for (at, left) in state.words.into_iter().enumerate().take(locations.into()) {
        if random.one_in(2) {
            let other = random.word();
            case.wanted[at] = true;
            case.want[at] = random.pick(&[left, left, left, left, 0, other]);
        }
    }
    if random.one_in(2) {
        case.passed = state.issued;
    }
    case
}

/// Questions about programs of all lengths: few of the long ones are decided.
fn too_long(random: &mut Random) -> Vec<Case> {
    let case = |_| {
        let mut case = any(random);
        dress(random, &mut case);
        case.wanted[0] = true;
        case.want[0] = random.word();
        case
    };
    (0..30).map(case).collect()
}

fn of_trials(trials: &[Trial]) -> Vec<Case> {
    trials.iter().map(|one| read(&one.input).case).collect()
}
