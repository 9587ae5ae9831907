//! What there is to tell of a case: the answer of the proved programs, the run, and the state behind each of its legal steps.

pub mod blocker;
pub mod compares;
pub mod lives;
pub mod search;
pub mod state;

use crate::case::{Case, Step};
use blocker::Place;
use search::Search;
use state::State;

#[derive(Clone, Copy, Debug, PartialEq, Eq)]
pub enum Answer {
    Reached,
    /// How many distinct states were gone through; none of the plain walk, which counts runs.
    Unreachable {
        states: Option<u32>,
    },
    /// Likewise.
    Undecided {
        states: Option<u32>,
    },
    Legal,
    /// The index of the first illegal step, from 0, its rule, and where the entry stands that is in its way, if one is.
    Illegal {
        index: usize,
        rule: u32,
        blocker: Option<Place>,
    },
}

impl Answer {
    pub fn word(self) -> &'static str {
        match self {
            Answer::Reached => "reached",
            Answer::Unreachable { .. } => "unreachable",
            Answer::Undecided { .. } => "undecided",
            Answer::Legal => "legal",
            Answer::Illegal { .. } => "illegal",
        }
    }

    /// Document 01's number; of an illegal run that of its rule.
    pub fn number(self) -> u32 {
        match self {
            Answer::Reached => 100,
            Answer::Unreachable { .. } => 101,
            Answer::Undecided { .. } => 102,
            Answer::Legal => 103,
            Answer::Illegal { rule, .. } => rule,
        }
    }

    pub fn blocker(self) -> Option<Place> {
        match self {
            Answer::Illegal { blocker, .. } => blocker,
            _ => None,
        }
    }
}

/// What the proved reader refused.
#[derive(Clone, Copy, Debug, PartialEq, Eq)]
pub struct Refusal {
    pub number: u32,
    /// Of the faulty record.
    pub offset: usize,
    /// Whether that is a program record of another version than 1: it may give cache lines.
    pub is_lined: bool,
}

pub struct Story {
    pub file: String,
    pub case: Case,
    pub answer: Answer,
    /// What was asked the question, and how far it might go; none where a run is judged.
    pub search: Option<Search>,
    /// The program's full length.
    pub full_length: usize,
    /// The run that reaches, or the run that is judged; its illegal step and what is behind it too. Empty where nothing is reached.
    pub run: Vec<Step>,
    /// The start, then the state behind each legal step.
    pub states: Vec<State>,
    /// Steps that the proved judge passes behind the legal ones, and that take the blocker away; empty where there is none.
    pub away: Vec<Step>,
}
