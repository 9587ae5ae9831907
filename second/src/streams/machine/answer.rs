//! The second judge's answer to a frame of the machine's stream, and its line.

use super::frame::{Job, Trial};
use super::raw;
use crate::judge::case::Case;
use crate::judge::machine::blocker::Blocker;
use crate::judge::machine::judge::{judge, judge_bytes, single_step, start, Verdict};
use crate::judge::machine::state::State;
use crate::judge::machine::work::{full_length, work_left};
use crate::judge::reading::read;
use crate::streams::cases::frame::slot;
use crate::streams::wire::push_hex;

pub struct Answer {
    /// The case that the verdict, the work and the full length are about.
    pub case: Case,
    /// The state that a single step is given with.
    pub given: Option<State>,
    pub verdict: Verdict,
    pub work: Result<u32, u8>,
    pub full: Result<u32, u8>,
}

pub fn answer(trial: &Trial) -> Answer {
    let mut case = read(&trial.input).case;
    if trial.job != Job::Bytes {
        if let Some(mut field) = slot(&mut case, trial.field) {
            field.set(trial.value);
        }
    }
    let given = match &trial.job {
        Job::Step(_, state) => Some(raw::decode(state)),
        _ => None,
    };
    let verdict = match (&trial.job, &given) {
        (Job::Step(step, _), Some(state)) => single_step(&case, state.clone(), step),
        (Job::Bytes, _) => judge_bytes(&trial.input),
        (Job::Start, _) => start(&case),
        _ => judge(&case),
    };
    Answer {
        work: work_left(&case, given.as_ref().unwrap_or(&verdict.state)),
        full: full_length(&case),
        case,
        given,
        verdict,
    }
}

impl Answer {
    pub fn line(&self) -> String {
        let told = |number: Result<u32, u8>| match number {
            Ok(number) => number.to_string(),
            Err(refusal) => format!("r{refusal}"),
        };
        let Verdict {
            number,
            place,
            blocker,
            state,
        } = &self.verdict;
        let mut line = format!("{number} {place} {} {} ", told(self.work), told(self.full));
        push_hex(&mut line, &raw::encode(state));
        line + &ended(*blocker)
    }
}

/// The end of a line: the blocker, where there is one.
fn ended(blocker: Option<Blocker>) -> String {
    blocker.map_or("\n".to_string(), |blocker| format!(" {blocker}\n"))
}

/// Number and place of job 0, and the blocker; of another job nothing.
pub fn judged_line(trial: &Trial) -> String {
    if trial.job != Job::Bytes {
        return String::new();
    }
    let verdict = judge_bytes(&trial.input);
    let (number, place) = (verdict.number, verdict.place);
    format!("{number} {place}{}", ended(verdict.blocker))
}
