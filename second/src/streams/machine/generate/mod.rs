//! The frames of the machine's comparison, from a seed.

mod beside;
pub mod blocked;
mod cases;
mod compares;
mod junk;
mod limits;
mod misfits;
mod moves;
mod near;
mod orders;
pub mod programs;
pub mod rows;
pub mod runs;
mod scene;
mod script;
mod scripts;
mod shared;
mod starts;
mod steps;
mod weighed;

use super::frame::Trial;
use crate::streams::parts::{hand_out, Part, Take};
use crate::streams::random::Random;
use std::io;

/// Made once, whatever the number of frames asked for.
const ONCE: [Part<Trial>; 17] = [
    runs::every_length,
    runs::filled,
    runs::ended_by_each_rule,
    scripts::all,
    cases::refused,
    cases::longest,
    cases::changed,
    cases::unset,
    starts::all,
    steps::all,
    steps::everywhere,
    misfits::all,
    orders::all,
    orders::beaten,
    blocked::all,
    rows::all,
    limits::all,
];

/// Made in turn until there are enough frames.
const AGAIN: [Part<Trial>; 10] = [
    runs::some,
    scripts::some,
    cases::some,
    starts::some,
    steps::some,
    steps::anywhere,
    misfits::some,
    orders::some,
    runs::ended,
    blocked::some,
];

/// Hands out at least `count` frames, part by part.
pub fn frames(seed: u64, count: u64, take: Take<Trial>) -> io::Result<()> {
    hand_out(&ONCE, &AGAIN, seed, count, take)
}

/// A frame from one of a table's rows.
type FromRow<Row> = fn(&mut Random, &Row) -> Trial;

/// Every row in turn, so many times.
fn by_turns<Row>(
    random: &mut Random,
    rows: &[Row],
    times: usize,
    trial: FromRow<Row>,
) -> Vec<Trial> {
    let turns = rows.iter().cycle().take(times * rows.len());
    turns.map(|row| trial(random, row)).collect()
}

/// Thirty rows picked at random.
fn by_chance<Row: Copy>(random: &mut Random, rows: &[Row], trial: FromRow<Row>) -> Vec<Trial> {
    (0..30)
        .map(|_| {
            let row = random.pick(rows);
            trial(random, &row)
        })
        .collect()
}
