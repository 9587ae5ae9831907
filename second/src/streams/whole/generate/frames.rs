//! The frames of a program: cases whose steps are runs of it.

use crate::judge::case::{Case, Step, MOST_STEPS};
use crate::judge::machine::steps::all_steps;
use crate::judge::whole::engine::OURS;
use crate::judge::whole::point::Point;
use crate::judge::whole::program::Program;
use crate::judge::writing::encode;
use crate::streams::machine::frame::{Job, Trial};
use crate::streams::machine::generate::runs::walk;
use crate::streams::random::Random;

/// Of a program with at least one instruction.
pub fn all(random: &mut Random, case: &Case) -> Vec<Trial> {
    let program = Program::of(case);
    let mut trials: Vec<Trial> = program
        .pairs()
        .iter()
        .map(|&(at, thread)| written_out(&program, at, thread))
        .collect();
    for _ in 0..2 {
        let (finished, _) = walk(random, case, MOST_STEPS);
        trials.push(judged(case, &finished));
        let length = random.below(program.full as usize);
        let (cut, _) = walk(random, case, length);
        trials.push(judged(case, &cut));
    }
    let (mut run, _) = walk(random, case, MOST_STEPS - 1);
    // By its kind first: most steps in range are moves.
    let code = random.between(0, 2);
    let mut beyond = all_steps(case);
    beyond.retain(|step| step.code == code);
    run.push(random.pick(&beyond));
    trials.push(judged(case, &run));
    trials
}

/// The judge looks at neither the want nor the passed count: they tell whose write must be where.
fn written_out(program: &Program, at: usize, thread: usize) -> Trial {
    let run = program.carried(thread).run;
    let end = Point::behind(&OURS, &program.case, &run);
    let word = end.and_then(|end| end.fixed[thread][at]);
    let mut case = program.case.clone();
    case.wanted[at] = true;
    case.want[at] = word.unwrap_or(0);
    case.passed[thread] = case.counts[thread];
    judged(&case, &run)
}

fn judged(case: &Case, run: &[Step]) -> Trial {
    let mut case = case.clone();
    case.set_run(run);
    Trial {
        job: Job::Bytes,
        input: encode(&case),
        field: 0,
        value: 0,
    }
}
