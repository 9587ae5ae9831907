//! Whether a crash can leave a memory.

use super::case::{Case, Step};
use super::machine::state::State;
use super::machine::work::full_length;
use super::reading::read;
use super::refusal::BUFFER_TOO_SHORT;
use super::walk::Walk;
use super::writing::encode_steps;

pub const REACHED: u8 = 100;
pub const UNREACHABLE: u8 = 101;
pub const UNDECIDED: u8 = 102;

/// Bytes of a step's record.
pub const RECORD: usize = 8;

pub enum End {
    /// The first run that reaches the question.
    Reached(Vec<Step>),
    Unreachable,
    Undecided,
}

pub struct Search {
    /// How many runs were looked at. A walk that remembers has one to each state.
    pub runs: u32,
    pub end: End,
}

/// Looks at the first runs of the walk, as many as the budget covers.
pub fn search(case: &Case, budget: u32) -> Search {
    look(case, Walk::new(case), budget)
}

/// Looks at the first runs of a walk, as many as are covered.
pub fn look(case: &Case, mut walk: Walk, covered: u32) -> Search {
    for runs in 1..=covered {
        if reaches(case, walk.state()) {
            let end = End::Reached(walk.run());
            return Search { runs, end };
        }
        if !walk.go_on() {
            let end = End::Unreachable;
            return Search { runs, end };
        }
    }
    Search {
        runs: covered,
        end: End::Undecided,
    }
}

/// The words match every want, and every passed count is met.
pub fn reaches(case: &Case, state: &State) -> bool {
    let mut wants = case.wanted.iter().zip(&case.want).zip(&state.words);
    let mut passed = case.passed.iter().zip(&state.issued);
    wants.all(|((wanted, want), word)| !wanted || want == word)
        && passed.all(|(least, issued)| issued >= least)
}

pub struct Reply {
    pub number: u8,
    /// The number of steps for 100, the offset for a reading refusal, else 0.
    pub place: usize,
    /// As a search has them; 0 where it is refused.
    pub runs: u32,
}

/// Asked of the walk of all runs.
pub fn question(bytes: &[u8], lent: &mut [u8], budget: u32) -> Reply {
    reply(bytes, lent, |case| search(case, budget))
}

/// Reading, then 31, then a walk. Only 100 stores.
pub fn reply(bytes: &[u8], lent: &mut [u8], walked: impl Fn(&Case) -> Search) -> Reply {
    let reading = read(bytes);
    if reading.number != 0 {
        return refused(reading.number, reading.offset);
    }
    match full_length(&reading.case) {
        Ok(full) if lent.len() >= RECORD * full as usize => {}
        Ok(_) => return refused(BUFFER_TOO_SHORT, 0),
        Err(number) => return refused(number, 0),
    }
    let Search { runs, end } = walked(&reading.case);
    let (number, place) = match end {
        End::Reached(run) => {
            let records = encode_steps(&run);
            lent[..records.len()].copy_from_slice(&records);
            (REACHED, run.len())
        }
        End::Unreachable => (UNREACHABLE, 0),
        End::Undecided => (UNDECIDED, 0),
    };
    Reply {
        number,
        place,
        runs,
    }
}

fn refused(number: u8, place: usize) -> Reply {
    Reply {
        number,
        place,
        runs: 0,
    }
}
