//! Junk where nobody looks, in states that are to be read all the same.

use super::programs::word as any;
use super::scene::random_entry;
use crate::judge::case::Case;
use crate::judge::machine::state::{State, MARKER};
use crate::streams::machine::raw::{ENTRIES, ENTRY_BYTES};
use crate::streams::random::Random;
use crate::streams::sizes::{LOCATIONS, THREADS};

/// Of writes and of markers, some that no state may have among them.
const MARKS: [u8; 10] = [
    0,
    1,
    2,
    LOCATIONS - 1,
    LOCATIONS,
    MARKER - 1,
    MARKER,
    MARKER + THREADS - 1,
    MARKER + THREADS,
    255,
];

/// Junk behind the counts, and in words and registers that the program lacks.
pub fn add_junk(random: &mut Random, case: &Case, state: &mut State) {
    for word in &mut state.words[usize::from(case.locations)..] {
        *word = any(random);
    }
    for register in state.registers[usize::from(case.threads)..]
        .iter_mut()
        .flatten()
    {
        *register = any(random);
    }
    for queue in &mut state.queues {
        let used = queue.used().len();
        for place in &mut queue.places[used..] {
            place.word = any(random);
            place.mark = random.pick(&MARKS);
        }
    }
    for buffer in &mut state.buffers {
        let used = buffer.used().len();
        for place in &mut buffer.places[used..] {
            *place = random_entry(random, 255);
        }
    }
}

/// Kinds above 3, and junk where an entry's kind has no location or no word.
pub fn add_ignored(random: &mut Random, state: &mut [u8]) {
    let entries = &mut state[ENTRIES];
    for entry in entries.chunks_mut(ENTRY_BYTES) {
        let kind = entry[0];
        entry[0] += 4 * random.pick(&[0, 0, 1, 63]);
        if kind == 3 {
            entry[1] = random.between(0, 255);
        }
        if kind != 0 {
            let junk = any(random);
            entry[2..].copy_from_slice(&junk.to_le_bytes());
        }
    }
}
