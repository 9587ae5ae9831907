//! Number 32, tested on the case's form alone: no bytes are written or read for it.

use super::case::{Case, Instruction, Step};
use super::case::{MOST_INSTRUCTIONS, MOST_STEPS, OWN_LINES, TOLD_LINES};
use super::fields::{check_instruction, check_register, check_step};
use super::lines;

/// Whether some byte string reads as the case.
pub fn fits(case: &Case) -> bool {
    Case::sizes_fit(case.threads, case.locations)
        && lines_fit(case)
        && firsts_fit(case)
        && (0..case.counts.len()).all(|thread| instructions_fit(case, thread))
        && wants_fit(case)
        && passed_fit(case)
        && steps_fit(case)
}

/// Numbered as a record has them, or as a record that does not tell them means it.
fn lines_fit(case: &Case) -> bool {
    let (used, unused) = case.line.split_at(case.locations.into());
    let told = match case.version {
        OWN_LINES => lines::are_own(used),
        TOLD_LINES => true,
        _ => false,
    };
    told && lines::count(used) == Some(case.lines) && unused.iter().all(|&left| left == 0)
}

fn firsts_fit(case: &Case) -> bool {
    let lacking = &case.first[usize::from(case.locations)..];
    lacking.iter().all(|&word| word == 0)
}

/// A thread that the program lacks has no instructions: their thread would be out of range.
fn instructions_fit(case: &Case, thread: usize) -> bool {
    let count = usize::from(case.counts[thread]);
    if count > MOST_INSTRUCTIONS {
        return false;
    }
    let (used, unused) = case.code[Case::places(thread)].split_at(count);
    let good = |instruction: &Instruction| {
        check_instruction(case.threads, case.locations, thread as u8, instruction).is_ok()
    };
    let set = |at: usize| check_register(&used[..at], &used[at]).is_ok();
    used.iter().all(good)
        && (0..count).all(set)
        && unused.iter().all(|left| *left == Instruction::default())
}

fn wants_fit(case: &Case) -> bool {
    (0..case.wanted.len()).all(|location| {
        if case.wanted[location] {
            location < usize::from(case.locations)
        } else {
            case.want[location] == 0
        }
    })
}

/// A thread that the program lacks has no instructions, so its passed count can only be 0.
fn passed_fit(case: &Case) -> bool {
    let mut pairs = case.passed.iter().zip(case.counts.iter());
    pairs.all(|(least, count)| least <= count)
}

fn steps_fit(case: &Case) -> bool {
    let count = usize::from(case.count);
    if count > MOST_STEPS {
        return false;
    }
    let (used, unused) = case.steps.split_at(count);
    let good = |step: &Step| check_step(case.threads, case.lines, step).is_ok();
    used.iter().all(good) && unused.iter().all(|left| *left == Step::default())
}
