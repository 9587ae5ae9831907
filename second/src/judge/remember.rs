//! The question, asked of a walk that remembers, in lent memory: what that covers, and what is left there.

use super::ask::{look, reply, Reply, Search, REACHED, UNDECIDED, UNREACHABLE};
use super::case::Case;
use super::walk::Walk;

/// 32-bit words of the lent memory for a state.
pub const STATE_WORDS: u32 = 192;

/// How many states are covered: by the budget or by the memory, whichever is less.
pub fn covered(words: u32, budget: u32) -> u32 {
    budget.min(words / STATE_WORDS)
}

/// Looks at the first states of the walk, each once.
pub fn recall(case: &Case, covered: u32) -> Search {
    look(case, Walk::remembering(case), covered)
}

/// Asked of a walk that remembers.
pub fn remember(bytes: &[u8], lent: &mut [u8], words: u32, budget: u32) -> Reply {
    reply(bytes, lent, |case| recall(case, covered(words, budget)))
}

/// Whether a call with that answer leaves all lent memory 0, whatever it held; any other leaves it as it was.
pub fn clears(number: u8) -> bool {
    [REACHED, UNREACHABLE, UNDECIDED].contains(&number)
}

/// The states that are told with an answer: all that there are, or those that were covered.
pub fn states_told(reply: &Reply) -> u32 {
    match reply.number {
        UNREACHABLE | UNDECIDED => reply.runs,
        _ => 0,
    }
}
