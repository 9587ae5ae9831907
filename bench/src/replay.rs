//! A run judged by the plain machine: its steps taken in one state, up to the first that is not legal.

use crate::case::Case;
use crate::machine::Machine;

pub fn legal_steps<M: Machine>(case: &Case) -> u32 {
    let mut state = M::start(case);
    let mut taken = 0;
    for step in &case.steps {
        if !state.is_legal(case, *step) {
            break;
        }
        state.take(case, *step);
        taken += 1;
    }
    taken
}
