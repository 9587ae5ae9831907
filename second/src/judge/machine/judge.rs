//! Judging a run, and a single step given with a state; the start.

use super::blocker::{Blocker, Stop};
use super::effects::advance;
use super::fit;
use super::rules::check;
use super::state::State;
use crate::judge::case::{Case, Step};
use crate::judge::fields::check_step;
use crate::judge::form;
use crate::judge::reading::read;
use crate::judge::refusal::{require, READS_FROM_NO_BYTES, STATE_DOES_NOT_FIT};

pub const LEGAL: u8 = 103;

pub struct Verdict {
    /// 103, a rule, or a refusal number.
    pub number: u8,
    /// The number of steps, the index of the first illegal one, the offset of a reading
    /// refusal, else 0.
    pub place: usize,
    /// Of an illegal step, where its rule names one.
    pub blocker: Option<Blocker>,
    pub state: State,
}

/// Reading first.
pub fn judge_bytes(bytes: &[u8]) -> Verdict {
    let reading = read(bytes);
    if reading.number != 0 {
        return stopped(reading.number, reading.offset);
    }
    judge(&reading.case)
}

/// 32 first.
pub fn judge(case: &Case) -> Verdict {
    let begun = start(case);
    if begun.number != LEGAL {
        return begun;
    }
    let mut state = begun.state;
    let steps = &case.steps[..usize::from(case.count)];
    for (place, step) in steps.iter().enumerate() {
        if let Err(Stop { number, blocker }) = check(case, &state, step) {
            return Verdict {
                number,
                place,
                blocker,
                state,
            };
        }
        advance(case, &mut state, step);
    }
    Verdict {
        number: LEGAL,
        place: steps.len(),
        blocker: None,
        state,
    }
}

/// The state before a case's first step, for a case that bytes can bring about; else 32.
pub fn start(case: &Case) -> Verdict {
    if !form::fits(case) {
        return stopped(READS_FROM_NO_BYTES, 0);
    }
    Verdict {
        number: LEGAL,
        place: 0,
        blocker: None,
        state: State::start(case),
    }
}

fn stopped(number: u8, place: usize) -> Verdict {
    Verdict {
        number,
        place,
        blocker: None,
        state: State::start(&Case::empty()),
    }
}

/// 32, 33, then 5 and 8, then the rules. A refusal gives the state back as it was.
pub fn single_step(case: &Case, mut state: State, step: &Step) -> Verdict {
    let (number, blocker) = match may_step(case, &state, step) {
        Ok(()) => {
            advance(case, &mut state, step);
            (LEGAL, None)
        }
        Err(stop) => (stop.number, stop.blocker),
    };
    Verdict {
        number,
        place: 0,
        blocker,
        state,
    }
}

fn may_step(case: &Case, state: &State, step: &Step) -> Result<(), Stop> {
    require(form::fits(case), READS_FROM_NO_BYTES)?;
    require(fit::fits(case, state), STATE_DOES_NOT_FIT)?;
    check_step(case.threads, case.lines, step)?;
    check(case, state, step)
}
