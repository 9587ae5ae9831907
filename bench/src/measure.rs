//! How long each side takes for a case, in nanoseconds of processor time.

use crate::case::Case;
use crate::library::{self, BEFORE, NOW};
use crate::replay;
use crate::rows::{Arrays, Vectors};
use crate::walk;

/// Each side is timed so often, the sides in turn; the median counts.
pub const ROUNDS: usize = 5;

/// A sample repeats a small case until it has about so many runs of the walk, states, or steps of a judged run.
const A_SAMPLE: u32 = 20_000;

/// C's timespec on 64-bit Linux, and the clock of the process's own processor time.
#[repr(C)]
#[derive(Default)]
struct Timespec {
    seconds: i64,
    nanoseconds: i64,
}

const PROCESS_CLOCK: i32 = 2;

extern "C" {
    fn clock_gettime(clock: i32, time: &mut Timespec) -> i32;
}

/// Nanoseconds that this process has run: what else the machine does meanwhile is not in them.
pub fn processor_time() -> i64 {
    let mut time = Timespec::default();
    // C's function, with a struct of C's form to write to.
    let failed = unsafe { clock_gettime(PROCESS_CLOCK, &mut time) };
    assert_eq!(failed, 0, "the clock cannot be read");
    time.seconds * 1_000_000_000 + time.nanoseconds
}

/// The library's times have the reading of the file in them; the plain sides are given the case as data.
pub struct Times {
    pub library: f64,
    pub before: f64,
    pub vectors: f64,
    pub arrays: f64,
}

impl Times {
    /// The time of the faster plain side.
    pub fn faster(&self) -> f64 {
        self.vectors.min(self.arrays)
    }
}

/// Of a question, for a run of the walk.
pub fn question_times(case: &Case, runs: u32) -> Times {
    let file = case.bytes();
    let mut lent = vec![0; library::room(case.full_length())];
    let mut lent_before = lent.clone();
    of_four(
        runs,
        [
            &mut || NOW.question(&file, &mut lent, case.budget),
            &mut || BEFORE.question(&file, &mut lent_before, case.budget),
            &mut || walk::question::<Vectors>(case).visited,
            &mut || walk::question::<Arrays>(case).visited,
        ],
    )
}

/// Of a judged run, for a step.
pub fn judge_times(case: &Case) -> Times {
    let file = case.bytes();
    of_four(
        case.steps.len() as u32,
        [
            &mut || NOW.judge(&file),
            &mut || BEFORE.judge(&file),
            &mut || replay::legal_steps::<Vectors>(case),
            &mut || replay::legal_steps::<Arrays>(case),
        ],
    )
}

fn of_four(units: u32, sides: [&mut dyn FnMut() -> u32; 4]) -> Times {
    let [library, before, vectors, arrays] = in_turn(ROUNDS, units, sides);
    Times { library, before, vectors, arrays }
}

/// Each side's median, divided by what a call has of runs, of states or of steps.
pub fn in_turn<const SIDES: usize>(
    rounds: usize,
    units: u32,
    mut sides: [&mut dyn FnMut() -> u32; SIDES],
) -> [f64; SIDES] {
    let mut samples = [const { Vec::new() }; SIDES];
    for _ in 0..rounds {
        for (side, kept) in sides.iter_mut().zip(&mut samples) {
            kept.push(sample(units, side));
        }
    }
    samples.map(median)
}

/// The answers are summed and the sum is looked at, so that the compiler can leave none out.
fn sample(units: u32, ask: &mut dyn FnMut() -> u32) -> f64 {
    let repeats = (A_SAMPLE / units).max(1);
    let began = processor_time();
    let sum: u64 = (0..repeats).map(|_| u64::from(ask())).sum();
    let spent = processor_time() - began;
    assert!(sum > 0, "every answer is above 0");
    spent as f64 / (f64::from(repeats) * f64::from(units))
}

fn median(mut samples: Vec<f64>) -> f64 {
    samples.sort_by(f64::total_cmp);
    samples[samples.len() / 2]
}
