//! Exit statuses: of an answer, of the first line that a program printed, and of several files together.

use crate::desk::Outcome;
use crate::story::Answer;

pub const NO_ANSWER: u8 = 3;

/// The exit status for an answer.
pub fn status(outcome: &Outcome) -> u8 {
    match outcome {
        Outcome::Answer(Answer::Unreachable { .. } | Answer::Legal, _) => 0,
        Outcome::Answer(Answer::Reached | Answer::Illegal { .. }, _) => 1,
        Outcome::Answer(Answer::Undecided { .. }, _) => 2,
        Outcome::Refused(_) => NO_ANSWER,
    }
}

/// The graver of two: no answer, then reached or illegal, then undecided.
pub fn graver(one: u8, other: u8) -> u8 {
    let rank = |status: u8| [0, 2, 1, 3][status as usize];
    if rank(one) < rank(other) {
        other
    } else {
        one
    }
}

/// By the first word, where the program itself is heard.
pub fn raw_status(line: &str) -> u8 {
    match line.split(' ').next() {
        Some("UNREACHABLE" | "LEGAL" | "101") => 0,
        Some("REACHED" | "ILLEGAL" | "100") => 1,
        Some("UNDECIDED" | "102") => 2,
        _ => NO_ANSWER,
    }
}
