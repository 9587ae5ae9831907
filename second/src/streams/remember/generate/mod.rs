//! The cases of the comparison, each with its frames, from a seed: those of the question's stream, small ones
//! whose states are hard to tell apart, and large ones, which the walk of all runs does not come to the end of.

mod alike;
mod large;
mod loans;

use super::frame::Loan;
use crate::streams::parts::Take;
use crate::streams::question::generate as question;
use crate::streams::random::Random;
use std::io;

/// Hands out at least `count` cases, part by part.
pub fn cases(seed: u64, count: u64, take: Take<Vec<Loan>>) -> io::Result<()> {
    // Not the numbers that the question's stream draws from its seed.
    let mut random = Random::new(!seed);
    take(alike::all(&mut random))?;
    take(large::all(&mut random))?;
    question::cases(seed, count, &mut |part| {
        take(
            part.iter()
                .map(|queries| loans::asked(&mut random, queries))
                .collect(),
        )
    })
}
