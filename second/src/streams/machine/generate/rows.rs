//! Small runs by hand, each with the rule that its last step breaks and the blocker that it names.

use super::programs::{add, instruction_at};
use crate::judge::case::{Instruction, Step};
use crate::judge::machine::blocker::Blocker;
use crate::judge::machine::steps::{issue, persist, shift};
use crate::judge::writing::encode;
use crate::streams::layouts::{self, Layout};
use crate::streams::machine::frame::{Job, Trial};
use crate::streams::machine::marks::{marked, with_blocker};
use crate::streams::random::Random;
use crate::streams::registers::mend;

/// A row a line: how x, y and z lie on lines; the threads' instructions; the run, as document 01 prints it;
/// the rule that its last step breaks; the blocker.
const ROWS: &str = "\
own | store x, flush-opt x | I0 I0 M0.1 | 26 | B0.0
own | store y, store x, flush-opt x | I0 I0 I0 M0.2 | 26 | B0.1
own | store x, exchange y | I0 I0 | 22 | B0.0
own | flush-opt x, mfence | I0 M0.0 I0 | 23 | Q0.0
# compares that would succeed: all is 0
own | load x, store y, compare x | I0 I0 I0 | 22 | B0.0
own | load y, flush-opt y, compare x | I0 I0 M0.0 I0 | 23 | Q1.0
# and that would fail, behind any word but 0
own | load y, store y, compare x / exchange x | I1 I0 I0 I0 | 22 | B0.0
own | load y, flush-opt y, compare x / exchange x | I1 I0 I0 M0.0 I0 | 23 | Q1.0
# another thread's marker, behind a write
own | flush x / store x, flush-opt x | I1 I1 M1.0 M1.0 I0 M0.0 | 27 | Q0.0
# the lowest queue, not the oldest marker
own | flush-opt y, flush-opt x, sfence | I0 I0 I0 M0.0 M0.0 M0.0 | 28 | Q0.0
own | flush-opt y, flush-opt x, exchange x | I0 M0.0 I0 M0.0 I0 | 23 | Q0.0
own | flush-opt y, sfence | I0 I0 M0.0 M0.0 | 28 | Q1.0
own | flush-opt x, flush-opt y, sfence | I0 I0 I0 M0.0 M0.0 P0 M0.0 | 28 | Q1.0
# behind another thread's marker and an own write
own | store x, flush-opt x, mfence / flush-opt x | I1 M1.0 I0 M0.0 I0 M0.0 I0 | 23 | Q0.2
# of two that bar it the first
own | store y, sfence, store x, flush-opt x | I0 I0 I0 I0 M0.3 | 26 | B0.1
own | load x / flush-opt x, flush x, flush-opt x | I1 I1 I1 M1.2 | 26 | B1.1
# where it stands once another flush-opt has gone
own | store y, flush-opt x, store x, flush-opt x | I0 I0 I0 I0 M0.1 M0.2 | 26 | B0.1
own | store y, flush-opt x, mfence | I0 I0 I0 | 22 | B0.0
# 22 before 23
own | flush-opt x, store y, mfence | I0 M0.0 I0 I0 | 22 | B0.0
own | flush y / store y, store y | I1 I1 M1.0 M1.0 I0 M0.0 | 27 | Q1.0
001 | store y, flush-opt x | I0 I0 M0.1 | 26 | B0.0
001 | store z, store y, flush-opt x | I0 I0 I0 M0.2 | 26 | B0.1
001 | store y, flush x | I0 I0 M0.0 M0.0 | 27 | Q0.0
# a queue is named by its line: z is on line 1
001 | flush-opt z, sfence | I0 I0 M0.0 M0.0 | 28 | Q1.0
001 | flush-opt z, store x, flush-opt y, mfence | I0 M0.0 I0 M0.0 I0 M0.0 I0 | 23 | Q0.1
011 | store y, flush z | I0 I0 M0.0 M0.0 | 27 | Q1.0
011 | store y, flush-opt z, sfence | I0 I0 I0 M0.0 M0.0 M0.0 | 28 | Q1.1";

/// Each as bytes and in memory.
pub fn all(random: &mut Random) -> Vec<Trial> {
    let mut trials = Vec::new();
    for row in ROWS.lines().filter(|row| !row.starts_with('#')) {
        for job in [Job::Bytes, Job::Case] {
            trials.push(trial(random, row, job));
        }
    }
    trials
}

fn trial(random: &mut Random, row: &str, job: Job) -> Trial {
    let parts: Vec<&str> = row.split(" | ").collect();
    let layout = match parts[0] {
        "own" => Layout::own(2),
        told => Layout::told(&numbers(told)),
    };
    let threads: Vec<&str> = parts[1].split(" / ").collect();
    let mut case = layouts::case(threads.len() as u8, &layout);
    for (thread, code) in threads.into_iter().enumerate() {
        for told in code.split(", ") {
            add(&mut case, thread, instruction(random, told));
        }
    }
    mend(random, &mut case);
    let steps: Vec<Step> = parts[2].split(' ').map(step).collect();
    case.set_run(&steps);
    let rule = parts[3].parse().expect("a rule");
    let (name, index) = ("row: a blocker by hand", steps.len() - 1);
    let trial = marked(name, rule, index, encode(&case), job);
    with_blocker(trial, Some(place(parts[4])))
}

/// Words and registers are drawn; a compare's is then one that was loaded.
fn instruction(random: &mut Random, told: &str) -> Instruction {
    let (name, at) = told.split_once(' ').unwrap_or((told, "x"));
    let operation = match name {
        "store" => 1,
        "load" => 3,
        "exchange" => 4,
        "flush" => 5,
        "flush-opt" => 6,
        "sfence" => 7,
        "compare" => 9,
        _ => 8,
    };
    instruction_at(random, operation, at.as_bytes()[0] - b'x')
}

fn step(told: &str) -> Step {
    match (&told[..1], &numbers(told)[..]) {
        ("I", &[thread]) => issue(thread),
        ("M", &[thread, position]) => shift(thread, position),
        (_, numbers) => persist(numbers[0]),
    }
}

fn place(told: &str) -> Blocker {
    let numbers = numbers(told);
    let made = match &told[..1] {
        "B" => Blocker::waiting,
        _ => Blocker::queued,
    };
    made(numbers[0].into(), numbers[1].into())
}

fn numbers(told: &str) -> Vec<u8> {
    let digits = told.bytes().filter(u8::is_ascii_digit);
    digits.map(|digit| digit - b'0').collect()
}
