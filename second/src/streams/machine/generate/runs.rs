//! Runs step by step with the machine: legal ones of every length, and ones that a rule ends.

use super::programs::*;
use crate::judge::case::{Case, Step, ALL_CODE, MOST_STEPS};
use crate::judge::machine::effects::advance;
use crate::judge::machine::judge::LEGAL;
use crate::judge::machine::rules::check;
use crate::judge::machine::state::State;
use crate::judge::machine::steps::all_steps;
use crate::judge::writing::encode;
use crate::streams::machine::frame::{Job, Trial};
use crate::streams::machine::marks::marked;
use crate::streams::random::Random;
use crate::streams::sizes::LOCATIONS;

/// What a run takes first when it may choose, by step code and whether it passes another entry.
type Taste = fn(&Step) -> u8;

const TASTES: [Taste; 6] = [
    |_| 0,
    |_| 0,
    // Buffers fill up, then queues.
    |step| step.code,
    // Buffers fill up and stay so.
    |step| [0, 2, 1][usize::from(step.code)],
    // Nothing stays long.
    |step| 2 - step.code,
    // Flush-opts go early, writes late.
    |step| if step.position > 0 { 0 } else { 1 + step.code },
];

pub fn any_step(random: &mut Random, case: &Case) -> Step {
    random.pick(&all_steps(case))
}

/// Every step that is answered so.
pub fn steps_with(case: &Case, state: &State, answer: Result<(), u8>) -> Vec<Step> {
    let mut steps = all_steps(case);
    steps.retain(|step| check(case, state, step).map_err(|stop| stop.number) == answer);
    steps
}

/// Legal steps from the start, so many or until none is legal, and the state behind them.
pub fn walk(random: &mut Random, case: &Case, length: usize) -> (Vec<Step>, State) {
    let taste = random.pick(&TASTES);
    let strict = random.one_in(4);
    walk_by(random, case, length, taste, strict)
}

fn walk_by(
    random: &mut Random,
    case: &Case,
    length: usize,
    taste: Taste,
    strict: bool,
) -> (Vec<Step>, State) {
    let mut state = State::start(case);
    let mut steps = Vec::new();
    while steps.len() < length {
        let mut legal = steps_with(case, &state, Ok(()));
        if legal.is_empty() {
            break;
        }
        if strict || !random.one_in(8) {
            let best = legal.iter().map(taste).min();
            legal.retain(|step| Some(taste(step)) == best);
        }
        let step = random.pick(&legal);
        advance(case, &mut state, &step);
        steps.push(step);
    }
    (steps, state)
}

/// The case is judged, as bytes or in memory.
pub fn judged(random: &mut Random, name: &str, number: u8, place: usize, case: &Case) -> Trial {
    let job = if random.one_in(3) {
        Job::Case
    } else {
        Job::Bytes
    };
    marked(name, number, place, encode(case), job)
}

fn legal_run(random: &mut Random, length: usize) -> Trial {
    loop {
        let mut case = as_long_as(random, length as u32);
        dress(random, &mut case);
        let (steps, _) = walk(random, &case, length);
        // A run with failed compares may end before.
        if steps.len() == length {
            case.set_run(&steps);
            return judged(random, "legal run", LEGAL, length, &case);
        }
    }
}

/// Runs that issue all, then move all, then persist: full buffers, and a full queue where there is one
/// line.
pub fn filled(random: &mut Random) -> Vec<Trial> {
    let (issued, moved) = (ALL_CODE, 2 * ALL_CODE);
    let between = (issued + moved) / 2;
    let buffers = (issued - 12..issued + 18).chain([issued; 60]);
    let queues = (between + 1..between + 48).chain([moved; 80]);
    let mut trials = Vec::new();
    for length in buffers.chain(queues) {
        // A thread that stores from a register has a load too, which does not wait.
        let operations: &[u8] = match (length > between, random.one_in(2)) {
            (true, true) => &LONG,
            (true, false) => &LONGEST,
            (false, true) => &WAITING,
            (false, false) => &[1, 5, 6, 7],
        };
        let locations = random.pick(&[1, 1, 2, LOCATIONS]);
        let mut case = full_program(random, locations, operations);
        dress(random, &mut case);
        let (steps, _) = walk_by(random, &case, length, |step| step.code, true);
        case.set_run(&steps);
        trials.push(judged(random, "legal run", LEGAL, length, &case));
    }
    trials
}

pub fn every_length(random: &mut Random) -> Vec<Trial> {
    let lengths = (0..=MOST_STEPS).cycle().take(9 * (MOST_STEPS + 1));
    lengths.map(|length| legal_run(random, length)).collect()
}

pub fn some(random: &mut Random) -> Vec<Trial> {
    (0..30)
        .map(|_| {
            let length = random.below(MOST_STEPS + 1);
            legal_run(random, length)
        })
        .collect()
}

/// A legal run, a step that breaks the rule, and steps behind it, legal or not.
fn run_ended_by(random: &mut Random, rule: u8) -> Trial {
    loop {
        let length = random.below(MOST_STEPS);
        let length = if random.one_in(24) { 0 } else { length };
        let long = if random.one_in(2) { length } else { 0 };
        let mut case = as_long_as(random, long as u32);
        dress(random, &mut case);
        let (mut steps, state) = walk(random, &case, length);
        let place = steps.len();
        let broken = steps_with(&case, &state, Err(rule));
        match random.pick_some(&broken) {
            Some(step) => steps.push(step),
            None => continue,
        }
        add_steps_behind(random, &case, &state, &mut steps);
        case.set_run(&steps);
        let name = format!("run: rule {rule}");
        return judged(random, &name, rule, place, &case);
    }
}

/// Steps that would have been legal in that state, and any.
pub fn add_steps_behind(random: &mut Random, case: &Case, state: &State, steps: &mut Vec<Step>) {
    let legal = steps_with(case, state, Ok(()));
    let most = random.pick(&[0, 1, 4, MOST_STEPS]);
    while steps.len() < MOST_STEPS && random.below(most + 1) > 0 {
        let any = any_step(random, case);
        let good = random.pick_some(&legal).unwrap_or(any);
        steps.push(random.pick(&[any, good]));
    }
}

pub fn ended_by_each_rule(random: &mut Random) -> Vec<Trial> {
    let rules = (21..=29).cycle().take(9 * 180);
    rules.map(|rule| run_ended_by(random, rule)).collect()
}

pub fn ended(random: &mut Random) -> Vec<Trial> {
    (0..30)
        .map(|_| {
            let rule = random.between(21, 29);
            run_ended_by(random, rule)
        })
        .collect()
}

/// Cases with a run that goes on until no step is legal.
#[cfg(test)]
pub fn runs_for_tests(random: &mut Random, count: usize) -> Vec<(Case, Vec<Step>)> {
    (0..count)
        .map(|_| {
            let case = any(random);
            let (steps, _) = walk(random, &case, MOST_STEPS + 1);
            (case, steps)
        })
        .collect()
}
