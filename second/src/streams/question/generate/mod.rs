//! The cases of the question's comparison, each with its frames, from a seed.

mod commits;
mod deep;
mod handed;
pub mod queries;
mod races;
mod refused;
mod small;
pub mod wants;

use super::frame::Query;
use crate::streams::parts::{hand_out, Part, Take};
use std::io;

/// Made once, whatever the number of cases asked for.
const ONCE: [Part<Vec<Query>>; 8] = [
    small::empty,
    small::all,
    small::late,
    commits::all,
    handed::all,
    races::all,
    deep::all,
    refused::all,
];

/// Made in turn until there are enough cases.
const AGAIN: [Part<Vec<Query>>; 5] = [
    small::some,
    commits::some,
    handed::some,
    races::some,
    deep::some,
];

/// Hands out at least `count` cases, part by part.
pub fn cases(seed: u64, count: u64, take: Take<Vec<Query>>) -> io::Result<()> {
    hand_out(&ONCE, &AGAIN, seed, count, take)
}
