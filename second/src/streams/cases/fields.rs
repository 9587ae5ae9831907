//! The numbers of a case's fields in a frame (docs/FRAMES.md): where each part begins, in their order. An
//! instruction and a step have four each.

use crate::judge::case::{ALL_CODE, MOST_LOCATIONS, MOST_STEPS, MOST_THREADS};

pub const THREADS: u32 = 1;
pub const LOCATIONS: u32 = 2;
/// First contents, by location.
pub const FIRSTS: u32 = 3;
/// Instructions of each thread.
pub const COUNTS: u32 = FIRSTS + MOST_LOCATIONS as u32;
pub const CODE: u32 = COUNTS + MOST_THREADS as u32;
pub const WANTED: u32 = CODE + 4 * ALL_CODE as u32;
pub const WANTS: u32 = WANTED + MOST_LOCATIONS as u32;
pub const PASSED: u32 = WANTS + MOST_LOCATIONS as u32;
/// The number of steps.
pub const COUNT: u32 = PASSED + MOST_THREADS as u32;
pub const STEPS: u32 = COUNT + 1;
pub const VERSION: u32 = STEPS + 4 * MOST_STEPS as u32;
/// The number of lines.
pub const LINES: u32 = VERSION + 1;
/// The line of each location.
pub const LINE: u32 = LINES + 1;
/// From here on a frame changes nothing.
pub const END: u32 = LINE + MOST_LOCATIONS as u32;

/// The operation of the instruction at that place.
pub const fn operation(place: usize) -> u32 {
    CODE + 4 * place as u32
}

/// Its register.
pub const fn register(place: usize) -> u32 {
    operation(place) + 2
}
