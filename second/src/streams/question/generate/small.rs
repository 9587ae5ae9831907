//! Programs whose walk can be gone through.

use super::queries::{decided_within, refused};
use super::wants;
use crate::judge::case::Case;
use crate::judge::reading::read;
use crate::streams::cases::generate::valid::ROW;
use crate::streams::machine::generate::programs::{program, tame, COMPARING, EVERY, FENCED, LONG};
use crate::streams::question::frame::Query;
use crate::streams::random::Random;
use crate::streams::sizes::{INSTRUCTIONS, LOCATIONS, THREADS};

/// Exchanges, compares, fences and what they wait for.
const HEAVY: [u8; 12] = [4, 4, 8, 8, 7, 7, 6, 1, 9, 9, 9, 3];
/// Values that go from location to location.
const PASSING: [u8; 9] = [1, 2, 2, 2, 3, 3, 4, 9, 9];
/// One step or two each.
const SHORT: [u8; 8] = [3, 4, 5, 7, 8, 3, 9, 9];

/// The least and the most runs that decide.
const EXTENTS: [(u32, u32); 6] = [
    (1, 40),
    (8, 200),
    (8, 200),
    (40, 600),
    (100, 1000),
    (300, 1500),
];

/// A program without instructions: the empty run alone.
pub fn empty(random: &mut Random) -> Vec<Vec<Query>> {
    let case = |random: &mut Random| {
        let counts = vec![0; usize::from(random.between(1, THREADS))];
        let locations = random.between(1, LOCATIONS);
        program(random, locations, &counts, &EVERY)
    };
    (0..120).map(|_| draw(random, case, (1, 1))).collect()
}

pub fn all(random: &mut Random) -> Vec<Vec<Query>> {
    let row = decided_within(random, &read(&ROW).case, 8, 8);
    let mut cases: Vec<Vec<Query>> = row.into_iter().collect();
    for _ in 0..12 {
        cases.extend(some(random));
    }
    cases
}

pub fn some(random: &mut Random) -> Vec<Vec<Query>> {
    let extents = EXTENTS.iter().cycle().take(10 * EXTENTS.len());
    extents.map(|&extent| draw(random, any, extent)).collect()
}

/// The longest walks.
pub fn late(random: &mut Random) -> Vec<Vec<Query>> {
    (0..8).map(|_| draw(random, any, (3000, 20000))).collect()
}

/// Draws until the walk is decided within the extent; now and then spoils the file too.
pub fn draw(
    random: &mut Random,
    make: fn(&mut Random) -> Case,
    (least, most): (u32, u32),
) -> Vec<Query> {
    loop {
        let mut case = make(random);
        wants::add(random, &mut case);
        if let Some(mut queries) = decided_within(random, &case, least, most) {
            if random.one_in(8) {
                queries.extend(refused(random, &case));
            }
            return queries;
        }
    }
}

fn any(random: &mut Random) -> Case {
    let threads = random.between(1, THREADS);
    let most = random.pick(&[[INSTRUCTIONS, 3, 3, 2], [5, 3, 2, 2]])[usize::from(threads) - 1];
    let counts: Vec<u8> = (0..threads).map(|_| random.between(0, most)).collect();
    let any = random.between(1, LOCATIONS);
    let locations = random.pick(&[1, 2, 2, 3, any, any]);
    let operations: [&[u8]; 9] = [
        &EVERY, &LONG, &FENCED, &HEAVY, &PASSING, &PASSING, &SHORT, &COMPARING, &COMPARING,
    ];
    let operations = random.pick(&operations);
    let mut case = program(random, locations, &counts, operations);
    if operations == &COMPARING[..] || random.one_in(4) {
        tame(random, &mut case);
    }
    case
}
