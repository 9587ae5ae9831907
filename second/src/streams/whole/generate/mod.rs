//! The small programs, each with its frames, from a seed.

pub mod frames;
pub mod programs;

use crate::streams::machine::frame::Trial;
use crate::streams::parts::{hand_out, Part, Take};
use crate::streams::random::Random;
use programs::{Size, BENTS, LARGE, SIZES};
use std::io;

/// Made once, whatever the number of programs asked for.
const ONCE: [Part<Vec<Trial>>; 4] = [
    |random| each(random, &SIZES, 12),
    |random| each(random, &LARGE, 6),
    |random| comparing(random, &SIZES, 110),
    |random| comparing(random, &LARGE, 20),
];

/// Made in turn until there are enough programs.
const AGAIN: [Part<Vec<Trial>>; 1] = [one];

/// Hands out at least `count` programs, part by part.
pub fn programs(seed: u64, count: u64, take: Take<Vec<Trial>>) -> io::Result<()> {
    hand_out(&ONCE, &AGAIN, seed, count, take)
}

/// Every size and bent, so many times.
fn each(random: &mut Random, sizes: &[Size], times: usize) -> Vec<Vec<Trial>> {
    let mut all = Vec::new();
    for size in sizes.iter().cycle().take(times * sizes.len()) {
        for bent in BENTS {
            let case = programs::draw(random, size, bent);
            all.push(frames::all(random, &case));
        }
    }
    all
}

/// Every size, so many times, with compares.
fn comparing(random: &mut Random, sizes: &[Size], times: usize) -> Vec<Vec<Trial>> {
    let sizes = sizes.iter().cycle().take(times * sizes.len());
    let cases = sizes.map(|size| {
        let case = programs::draw_comparing(random, size);
        frames::all(random, &case)
    });
    cases.collect()
}

fn one(random: &mut Random) -> Vec<Vec<Trial>> {
    let sizes: &[Size] = if random.one_in(10) { &LARGE } else { &SIZES };
    let size = &sizes[random.below(sizes.len())];
    let bent = random.pick(&BENTS);
    let case = match random.below(3) {
        0 => programs::draw_comparing(random, size),
        _ => programs::draw(random, size, bent),
    };
    vec![frames::all(random, &case)]
}
