//! Work left and full length.

use super::fit;
use super::state::{Entry, State};
use crate::judge::case::{Case, Instruction};
use crate::judge::form;
use crate::judge::refusal::{require, READS_FROM_NO_BYTES, STATE_DOES_NOT_FIT};

/// 32, then 33, then the sum.
pub fn work_left(case: &Case, state: &State) -> Result<u32, u8> {
    require(form::fits(case), READS_FROM_NO_BYTES)?;
    require(fit::fits(case, state), STATE_DOES_NOT_FIT)?;
    Ok(sum(case, state))
}

/// 32, then the work left at the start.
pub fn full_length(case: &Case) -> Result<u32, u8> {
    require(form::fits(case), READS_FROM_NO_BYTES)?;
    Ok(sum(case, &State::start(case)))
}

/// The case is readable and the state fits it.
pub fn sum(case: &Case, state: &State) -> u32 {
    let mut sum = 0;
    for (thread, buffer) in state.buffers.iter().enumerate() {
        sum += state
            .unissued(case, thread)
            .iter()
            .map(unissued)
            .sum::<u32>();
        sum += buffer.used().iter().map(waiting).sum::<u32>();
    }
    let queued = state.queues.iter().map(|queue| u32::from(queue.count));
    sum + queued.sum::<u32>()
}

fn unissued(instruction: &Instruction) -> u32 {
    match instruction.operation {
        1 | 2 | 6 => 3,
        4 | 5 | 7 | 9 => 2,
        _ => 1,
    }
}

fn waiting(entry: &Entry) -> u32 {
    match entry {
        Entry::Store { .. } | Entry::FlushOpt(_) => 2,
        Entry::Flush(_) | Entry::Sfence => 1,
    }
}
