//! A frame that asks, its answer, and what the judge says of both.

use super::answer::Answer;
use super::frame::Query;
use super::known::Decided;
use super::ledger::without_steps;
use crate::judge::ask::{reaches, REACHED, RECORD, UNDECIDED};
use crate::judge::case::{Case, Step};
use crate::judge::machine::judge::{judge_bytes, single_step, LEGAL};
use crate::judge::machine::rules::STORE_REGISTER;
use crate::judge::machine::state::State;
use crate::judge::machine::work::full_length;
use crate::judge::reading::read;
use crate::judge::refusal::BUFFER_TOO_SHORT;
use crate::judge::whole::outcome::{along, issued, Outcome};
use crate::streams::wire::UNTOUCHED;

pub struct Sight<'a> {
    pub query: &'a Query,
    pub answer: &'a Answer,
    /// How many runs of the walk are looked at, at the most.
    pub covered: u32,
    /// 0, or the number of the reading refusal.
    pub refusal: u8,
    /// The empty case where the reading is refused.
    pub case: Case,
    /// The least room that the case asks for.
    pub need: usize,
    /// Behind the run that is shown.
    pub end: Option<State>,
    /// Of the compares of that run.
    pub outcomes: Vec<Outcome>,
    /// How many stores from a register it issues.
    pub stored: usize,
}

impl<'a> Sight<'a> {
    pub fn new(query: &'a Query, answer: &'a Answer, covered: u32) -> Sight<'a> {
        let reading = read(&query.input);
        let stored = along_shown(&reading.case, answer, issued);
        Sight {
            query,
            answer,
            covered,
            refusal: reading.number,
            need: RECORD * full_length(&reading.case).unwrap_or(0) as usize,
            end: end_of(&reading.case, answer),
            outcomes: along_shown(&reading.case, answer, Outcome::of),
            stored: stored
                .iter()
                .filter(|next| next.operation == STORE_REGISTER)
                .count(),
            case: reading.case,
        }
    }

    /// What the answer decided, and with how much.
    pub fn decided(&self) -> Decided {
        let reply = &self.answer.reply;
        Decided {
            limit: self.covered,
            number: reply.number,
            run: self.answer.lent[..RECORD * reply.place].to_vec(),
        }
    }

    /// What is wrong with the answer.
    pub fn faults(&self) -> Vec<&'static str> {
        let mut faults = self.of_order();
        faults.extend(self.of_bytes());
        faults.extend(self.of_run());
        faults
    }

    /// Reading, 31 and nothing covered, in this order.
    fn of_order(&self) -> Vec<&'static str> {
        let number = self.answer.reply.number;
        let short = self.refusal == 0 && self.answer.lent.len() < self.need;
        let mut faults = Vec::new();
        if self.refusal != 0 && number != self.refusal {
            faults.push("the reading refusal does not come first");
        }
        if short != (number == BUFFER_TOO_SHORT) {
            faults.push("31 where the room is enough, or none where it is not");
        }
        if self.covered == 0 && self.refusal == 0 && !short && number != UNDECIDED {
            faults.push("decided without a run");
        }
        faults
    }

    fn of_bytes(&self) -> Option<&'static str> {
        let Answer { reply, lent } = self.answer;
        let stored = match reply.number {
            REACHED => RECORD * reply.place,
            _ => 0,
        };
        let touched = lent[stored..].iter().any(|&byte| byte != UNTOUCHED);
        touched.then_some("bytes behind were touched")
    }

    /// The run that is shown is legal, it reaches the question, and no part of it does so before.
    fn of_run(&self) -> Option<&'static str> {
        if self.answer.reply.number != REACHED {
            return None;
        }
        let end = match &self.end {
            Some(end) => end,
            None => return Some("the run shown is not legal"),
        };
        if !reaches(&self.case, end) {
            return Some("the run shown does not reach the question");
        }
        let shown = read(&with_run(&self.case, self.answer)).case;
        let mut state = State::start(&self.case);
        for step in &shown.steps[..self.answer.reply.place] {
            if reaches(&self.case, &state) {
                return Some("a shorter run reaches the question before");
            }
            state = single_step(&self.case, state, step).state;
        }
        None
    }
}

/// The file of the case with the run that is shown.
fn with_run(case: &Case, answer: &Answer) -> Vec<u8> {
    let run = &answer.lent[..RECORD * answer.reply.place];
    [&without_steps(case), run].concat()
}

/// The state behind the run that is shown, if the judge lets it pass with all its steps.
fn end_of(case: &Case, answer: &Answer) -> Option<State> {
    if answer.reply.number != REACHED {
        return None;
    }
    let verdict = judge_bytes(&with_run(case, answer));
    let passes = (verdict.number, verdict.place) == (LEGAL, answer.reply.place);
    passes.then_some(verdict.state)
}

/// What is told of the steps that are shown; nothing where no run is.
fn along_shown<T>(
    case: &Case,
    answer: &Answer,
    told: fn(&Case, &State, &Step) -> Option<T>,
) -> Vec<T> {
    if answer.reply.number != REACHED {
        return Vec::new();
    }
    let shown = read(&with_run(case, answer)).case;
    along(&shown, &shown.steps[..answer.reply.place], told)
}
