//! The frames of cases, from a seed.

mod boundaries;
pub mod changes;
mod damage;
pub mod faults;
mod headers;
mod limits;
mod pairs;
pub mod records;
pub mod sketch;
mod spoil;
mod unset;
pub mod valid;

use crate::streams::cases::frame::Frame;
use crate::streams::parts::{hand_out, Part, Take};
use std::io;

/// Made once, whatever the number of frames asked for.
const ONCE: [Part<Frame>; 19] = [
    valid::all,
    damage::truncated,
    damage::flipped,
    damage::shuffled,
    damage::tailed,
    damage::large,
    damage::long,
    damage::followed,
    faults::all,
    headers::all,
    boundaries::all,
    limits::all,
    unset::places,
    changes::telling,
    changes::versions,
    changes::operations,
    changes::registers,
    changes::all,
    changes::readable,
];

/// Made in turn until there are enough frames.
const AGAIN: [Part<Frame>; 4] = [valid::some, damage::some, faults::some, changes::some];

/// Hands out at least `count` frames, part by part.
pub fn frames(seed: u64, count: u64, take: Take<Frame>) -> io::Result<()> {
    hand_out(&ONCE, &AGAIN, seed, count, take)
}
