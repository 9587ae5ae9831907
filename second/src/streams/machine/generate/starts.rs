//! The start asked for: of cases as they were read, of the empty one, and of cases changed in
//! memory.

use super::cases::{change, change_in, run_to_change, LINES};
use crate::judge::machine::judge::LEGAL;
use crate::streams::cases::fields;
use crate::streams::cases::generate::faults;
use crate::streams::machine::frame::{Job, Trial, MOST_INPUT};
use crate::streams::machine::marks::marked;
use crate::streams::random::Random;

/// The fields of threads and locations, first contents, and how many instructions there are.
const SHAPE: (u32, u32) = (1, fields::CODE);
/// The fields of first contents alone.
const FIRST_CONTENTS: (u32, u32) = (fields::FIRSTS, fields::COUNTS);

pub fn all(random: &mut Random) -> Vec<Trial> {
    (0..70).flat_map(|_| some(random)).collect()
}

pub fn some(random: &mut Random) -> Vec<Trial> {
    let mut trials: Vec<Trial> = (0..10).map(|_| as_read(random)).collect();
    trials.extend((0..10).map(|_| changed(random)));
    trials.extend(refused(random));
    trials
}

/// The run of its steps does not matter.
fn as_read(random: &mut Random) -> Trial {
    let input = run_to_change(random).input;
    marked("start: case as read", LEGAL, 0, input, Job::Start)
}

fn changed(random: &mut Random) -> Trial {
    let mut trial = Trial {
        job: Job::Start,
        ..run_to_change(random)
    };
    match random.below(4) {
        0 => change(random, &mut trial),
        3 => change_in(random, &mut trial, LINES.0, LINES.1),
        1 => change_in(random, &mut trial, SHAPE.0, SHAPE.1),
        _ => change_in(random, &mut trial, FIRST_CONTENTS.0, FIRST_CONTENTS.1),
    }
    trial
}

/// Bytes that do not read: the empty case, as it is and with a field changed.
fn refused(random: &mut Random) -> Vec<Trial> {
    let mut trials = Vec::new();
    for frame in faults::some(random) {
        if frame.input.len() > MOST_INPUT as usize {
            continue;
        }
        let mut trial = marked("start: reading refused", LEGAL, 0, frame.input, Job::Start);
        if random.one_in(2) {
            change_in(random, &mut trial, SHAPE.0, SHAPE.1);
        }
        trials.push(trial);
    }
    trials.truncate(6);
    trials
}
