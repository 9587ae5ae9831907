//! The machine as exploring uses it. It is handed in, so that tests can hand in one with a fault
//! and see that the fault is found.

use crate::judge::case::{Case, Step};
use crate::judge::machine::blocker::Stop;
use crate::judge::machine::judge::Verdict;
use crate::judge::machine::state::State;
use crate::judge::machine::{effects, judge, rules, work};

#[derive(Clone, Copy)]
pub struct Engine {
    pub check: fn(&Case, &State, &Step) -> Result<(), Stop>,
    pub advance: fn(&Case, &mut State, &Step),
    /// The work left.
    pub work: fn(&Case, &State) -> u32,
    pub judge: fn(&Case) -> Verdict,
}

pub const OURS: Engine = Engine {
    check: rules::check,
    advance: effects::advance,
    work: work::sum,
    judge: judge::judge,
};
