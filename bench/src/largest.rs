//! How many distinct states each side gets through in so many bytes and seconds, of a case that has more.

use crate::case::Case;
use crate::flat::{Bytes, Numbers};
use crate::library::{self, NOW, STATE_WORDS};
use crate::machine::Machine;
use crate::measure;
use crate::memory::Fast;
use crate::rows::Vectors;
use crate::twenty;
use crate::walk::{self, UNDECIDED};
use std::collections::HashSet;
use std::hash::Hash;

/// The plain searches look at clock and memory each time they have met so many states more.
const A_LOOK: u32 = 1 << 16;

/// States, and the seconds of processor time that they took.
type Reached = (u32, f64);

pub fn tell(side: &str, bytes: usize, seconds: usize) -> Result<(), String> {
    let (case, seconds) = (twenty::largest(), seconds as f64);
    let small = case.with_small_words();
    let (states, spent) = match side {
        "library" => of_library(&case, bytes, seconds)?,
        "vectors" => of_plain::<Vectors>(&small, 0, bytes, seconds)?,
        "numbers" => of_plain::<Numbers>(&small, 0, bytes, seconds)?,
        "bytes" => of_plain::<Bytes>(&small, 0, bytes, seconds)?,
        "bytes-at-once" => of_plain::<Bytes>(&small, most_at_once::<Bytes>(bytes), bytes, seconds)?,
        _ => return Err(format!("there is no side {}", side)),
    };
    println!("| {:<13} | {:>10} | {:>6.1} | {:>5.0} |", side, states, spent, spent * 1e9 / f64::from(states));
    Ok(())
}

fn seconds_since(began: i64) -> f64 {
    (measure::processor_time() - began) as f64 / 1e9
}

/// The call cannot be broken off: where it takes too long it is lent less.
fn of_library(case: &Case, bytes: usize, seconds: f64) -> Result<Reached, String> {
    let remembering = NOW.remembering.as_ref().ok_or("the library has no walk that remembers")?;
    let file = case.bytes();
    let mut lent = vec![0; library::room(case.full_length())];
    let mut memory = vec![1; bytes / size_of::<u32>()];
    loop {
        let states = (memory.len() / STATE_WORDS) as u32;
        let began = measure::processor_time();
        let number = remembering.remember(&file, &mut lent, &mut memory, states);
        let spent = seconds_since(began);
        if number != UNDECIDED {
            return Err(format!("the library says {} of {}", number, case.name));
        }
        if spent <= seconds {
            return Ok((states, spent));
        }
        memory.truncate((memory.len() as f64 * 0.98 * seconds / spent) as usize);
    }
}

/// The last look that found the process within both. Its most resident memory counts: a set that grows has the old one
/// beside the new for a while.
fn of_plain<M: Machine + Eq + Hash>(
    case: &Case,
    capacity: usize,
    bytes: usize,
    seconds: f64,
) -> Result<Reached, String> {
    let began = measure::processor_time();
    let mut reached = (0, 0.0);
    let met = HashSet::<M, Fast>::with_capacity_and_hasher(capacity, Fast::default());
    let answer = walk::search(case, met, |states| {
        if states % A_LOOK != 0 {
            return false;
        }
        let spent = seconds_since(began);
        let within = spent <= seconds && most_resident() <= bytes;
        if within {
            reached = (states, spent);
        }
        !within
    });
    match answer.number {
        UNDECIDED => Ok(reached),
        number => Err(format!("the plain search says {} of {}", number, case.name)),
    }
}

/// The states of the greatest set that fits: its places are a power of two, with a byte more each, and seven of eight
/// are filled.
fn most_at_once<M>(bytes: usize) -> usize {
    let places = bytes / (size_of::<M>() + 1);
    (1 << places.ilog2()) / 8 * 7
}

/// The most bytes of memory that this process has had so far.
fn most_resident() -> usize {
    let status = std::fs::read_to_string("/proc/self/status").unwrap_or_default();
    let kilobytes = status.lines().find_map(|line| line.strip_prefix("VmHWM:")?.trim().strip_suffix(" kB"));
    kilobytes
        .and_then(|kilobytes| kilobytes.parse::<usize>().ok())
        .map_or(usize::MAX, |kilobytes| 1024 * kilobytes)
}
