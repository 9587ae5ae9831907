//! Bytes that are refused, and cases changed in memory.

use super::programs::*;
use super::runs::{any_step, walk};
use super::scene::{Need, Scene, ANY};
use super::{scripts, steps};
use crate::judge::ask::RECORD;
use crate::judge::case::{Case, MOST_LOCATIONS, MOST_STEPS, MOST_THREADS};
use crate::judge::machine::judge::LEGAL;
use crate::judge::reading::read;
use crate::judge::writing::encode;
use crate::streams::cases::fields;
use crate::streams::cases::frame::slot;
use crate::streams::cases::generate::changes::any_register;
use crate::streams::cases::generate::faults;
use crate::streams::cases::generate::records::random_step;
use crate::streams::cases::generate::sketch::Sketch;
use crate::streams::cases::marks::mark_of;
use crate::streams::machine::frame::{Job, Trial, MOST_INPUT};
use crate::streams::machine::marks::{marked, FITS};
use crate::streams::random::Random;
use crate::streams::sizes::{INSTRUCTIONS, LOCATIONS, THREADS};

/// Each refusal by construction, in all jobs: where reading is refused, jobs 1 and 2 have the
/// empty case.
pub fn refused(random: &mut Random) -> Vec<Trial> {
    let mut trials = Vec::new();
    while trials.len() < 2400 {
        for frame in faults::some(random) {
            let mark = mark_of(&frame).filter(|_| frame.input.len() <= MOST_INPUT as usize);
            if let Some(mark) = mark {
                trials.push(match random.below(8) {
                    0 => marked("legal: empty case", LEGAL, 0, frame.input, Job::Case),
                    1 => step_without_case(random, frame.input),
                    _ => {
                        let (number, offset) = (mark.number, mark.offset);
                        marked("reading refused", number, offset, frame.input, Job::Bytes)
                    }
                });
            }
        }
    }
    trials
}

/// The longest files, alone and with more behind them up to the longest input; and no bytes.
pub fn longest(random: &mut Random) -> Vec<Trial> {
    let mut trials = Vec::new();
    for _ in 0..60 {
        let file = longest_file(random);
        let step = encode_steps(random);
        let more = MOST_INPUT as usize - file.len();
        let length = random.pick(&[RECORD, 100, more, more]);
        let tails: [(u8, Vec<u8>); 3] = [
            (1, step[..1 + random.below(RECORD - 1)].to_vec()),
            (2, vec![0; length]),
            (9, step[..RECORD * (length / RECORD)].to_vec()),
        ];
        for (number, tail) in tails {
            let input = [file.clone(), tail].concat();
            let offset = file.len();
            trials.push(marked("reading refused", number, offset, input, Job::Bytes));
        }
        for job in [Job::Bytes, Job::Case] {
            trials.push(marked("legal run", LEGAL, MOST_STEPS, file.clone(), job));
        }
    }
    for _ in 0..10 {
        trials.push(marked("reading refused", 1, 0, Vec::new(), Job::Bytes));
        trials.push(marked("legal: empty case", LEGAL, 0, Vec::new(), Job::Case));
        trials.push(step_without_case(random, Vec::new()));
    }
    trials
}

/// As long as a file of its version can be, with a legal run of the most steps.
fn longest_file(random: &mut Random) -> Vec<u8> {
    let mut case = full_program(random, LOCATIONS, &LONGEST);
    for location in 0..MOST_LOCATIONS {
        case.first[location] = word(random).max(1);
        case.wanted[location] = true;
        case.want[location] = word(random);
    }
    case.passed = [random.between(1, INSTRUCTIONS); MOST_THREADS];
    let (steps, _) = walk(random, &case, MOST_STEPS);
    case.set_run(&steps);
    encode(&case)
}

/// Step records in range, as many as an input may have.
fn encode_steps(random: &mut Random) -> Vec<u8> {
    let count = MOST_INPUT as usize / RECORD;
    let records = (0..count).flat_map(|_| random_step(random, THREADS, 1).bytes());
    records.collect()
}

fn step_without_case(random: &mut Random, refused: Vec<u8>) -> Trial {
    let need = Need {
        threads: (1, 1),
        locations: (1, 1),
        unissued: (0, 0),
        ..ANY
    };
    let mut scene = Scene::new(random, &need);
    scene.case = Case::empty();
    scene.state.issued = [0; MOST_THREADS];
    let step = any_step(random, &scene.case);
    let mut trial = scene.trial(random, "step: reading refused", FITS, step);
    trial.input = refused;
    trial
}

pub fn changed(random: &mut Random) -> Vec<Trial> {
    (0..50).flat_map(|_| some(random)).collect()
}

/// A field of a case with a run or of a single step's case changed; files damaged; files with
/// steps at random.
pub fn some(random: &mut Random) -> Vec<Trial> {
    let mut trials: Vec<Trial> = (0..12).map(|_| run_to_change(random)).collect();
    trials.extend(scripts::some(random).into_iter().take(6));
    trials.extend(steps::some(random).into_iter().take(8));
    for trial in &mut trials {
        if trial.job == Job::Bytes {
            trial.job = Job::Case;
        }
        change(random, trial);
    }
    trials.extend((0..6).map(|_| damaged(random)));
    trials.extend((0..3).map(|_| moved_to_another_line(random)));
    trials
}

/// The line of a location changed so that the case is readable: neither the line that it leaves nor the
/// one that it comes to begins with it.
fn moved_to_another_line(random: &mut Random) -> Trial {
    loop {
        let mut trial = if random.one_in(2) {
            run_to_change(random)
        } else {
            steps::some(random).remove(0)
        };
        let case = read(&trial.input).case;
        let ways = (1..usize::from(case.locations)).flat_map(|at| {
            let before = &case.line[..at];
            let stays = before.contains(&case.line[at]);
            let others = before
                .iter()
                .filter(move |&&line| stays && line != case.line[at]);
            others.map(move |&line| (fields::LINE + at as u32, line.into()))
        });
        if let Some(way) = random.pick_some(&ways.collect::<Vec<(u32, u32)>>()) {
            (trial.field, trial.value) = way;
            return trial;
        }
    }
}

/// Runs, single steps and starts of cases in which a change left a register unset.
pub fn unset(random: &mut Random) -> Vec<Trial> {
    let mut trials = Vec::new();
    while trials.len() < 240 {
        let mut trial = match trials.len() % 3 {
            0 => run_to_change(random),
            1 => steps::some(random).remove(0),
            _ => Trial {
                job: Job::Start,
                ..run_to_change(random)
            },
        };
        if let Some(change) = any_register(random, &read(&trial.input).case, true) {
            (trial.field, trial.value) = change;
            trials.push(trial);
        }
    }
    trials
}

pub fn run_to_change(random: &mut Random) -> Trial {
    let mut case = any(random);
    dress(random, &mut case);
    let length = random.below(MOST_STEPS + 1);
    let (steps, _) = walk(random, &case, length);
    case.set_run(&steps);
    Trial {
        job: Job::Case,
        input: encode(&case),
        field: 0,
        value: 0,
    }
}

/// The fields of version and lines.
pub const LINES: (u32, u32) = (fields::VERSION, fields::END);

/// The many steps must not crowd out the other fields.
pub fn change(random: &mut Random, trial: &mut Trial) {
    let code = (fields::CODE, fields::WANTED);
    let ranges = [
        (0, fields::CODE),
        code,
        code,
        (fields::WANTED, fields::STEPS),
        (fields::STEPS, fields::VERSION),
        LINES,
    ];
    let (first, end) = random.pick(&ranges);
    change_in(random, trial, first, end);
}

/// One of the fields from the first on, the end left out.
pub fn change_in(random: &mut Random, trial: &mut Trial, first: u32, end: u32) {
    trial.field = first + random.below((end - first) as usize) as u32;
    let held = slot(&mut read(&trial.input).case, trial.field).map_or(0, |slot| slot.get());
    let any = word(random);
    let small = u32::from(random.between(0, LOCATIONS + 2));
    let (more, less) = (held.wrapping_add(1), held.wrapping_sub(1));
    let same = held.wrapping_add(1 << 24);
    trial.value = random.pick(&[held, same, more, more, less, less, 0, small, small, any]);
}

/// A byte of a run's file changed, its end lost, or steps at random.
fn damaged(random: &mut Random) -> Trial {
    let mut trial = run_to_change(random);
    trial.job = Job::Bytes;
    match random.below(4) {
        0 => trial.input = Sketch::any(random).bytes(),
        1 => trial.input.truncate(random.below(trial.input.len())),
        _ => {
            let at = random.below(trial.input.len());
            trial.input[at] ^= 1 << random.below(8);
        }
    }
    trial
}
