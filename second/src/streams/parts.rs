//! Handing out the parts of a stream, which are made from one seed.

use crate::streams::random::Random;
use std::io;

/// Some frames; what they are follows from the numbers drawn.
pub type Part<F> = fn(&mut Random) -> Vec<F>;

/// Whoever takes the parts.
pub type Take<'a, F> = &'a mut dyn FnMut(Vec<F>) -> io::Result<()>;

/// The parts made once, then the others in turn until there are enough frames.
pub fn hand_out<F>(
    once: &[Part<F>],
    again: &[Part<F>],
    seed: u64,
    count: u64,
    take: Take<F>,
) -> io::Result<()> {
    let mut random = Random::new(seed);
    let mut made = 0;
    let parts = once.iter().chain(again.iter().cycle());
    for (turn, part) in parts.enumerate() {
        if turn >= once.len() && made >= count {
            break;
        }
        let frames = part(&mut random);
        made += frames.len() as u64;
        take(frames)?;
    }
    Ok(())
}
