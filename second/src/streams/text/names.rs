//! Names of locations: those of the one text, and any that the grammar lets pass.

use crate::judge::case::MOST_LOCATIONS;
use crate::streams::random::Random;

pub const PLAIN: [&str; MOST_LOCATIONS] = [
    "x", "y", "z", "w", "a", "b", "c", "d", "e", "f", "g", "h", "j", "k", "m", "n",
];

pub const REGISTERS: [&str; 4] = ["r0", "r1", "r2", "r3"];

pub const MOST_CHARACTERS: usize = 24;

/// The words that statements begin with.
pub const KEYS: [&str; 19] = [
    "locations",
    "line",
    "first",
    "thread",
    "store",
    "load",
    "xchg",
    "cmpxchg",
    "cas",
    "clflush",
    "clflushopt",
    "sfence",
    "mfence",
    "want",
    "passed",
    "run",
    "issue",
    "move",
    "persist",
];

pub const LIKE_STEPS: [&str; 8] = ["I0", "I1", "M0.0", "M0.1", "P0", "P1", "P7", "I"];

pub const LIKE_REGISTERS: [&str; 6] = ["R0", "r4", "r00", "r", "r0x", "r0."];

const LIKE_OTHERS: [&str; 12] = [
    "x.limit", "_a-b", "_", "__", "x0", "X", "Store", "limit", "Limit", "valid", "e1", "a--",
];

const BEGIN: &[u8] = b"abcdefghijklmnopqrstuvwxyzABCDEFGHIJKLMNOPQRSTUVWXYZ_";
const GO_ON: &[u8] = b"abcdefghijklmnopqrstuvwxyzABCDEFGHIJKLMNOPQRSTUVWXYZ_0123456789-.";

/// So many names, all different.
pub fn draw(random: &mut Random, count: u8) -> Vec<String> {
    // One pool for all names at times, so that each of them has to be told from its like.
    let pool = random.pick(&[Some(&PLAIN[..]), Some(&KEYS[..]), None]);
    let mut names: Vec<String> = Vec::new();
    while names.len() < usize::from(count) {
        let name = match (pool, names.last()) {
            (_, Some(last)) if random.one_in(16) => last.to_uppercase(),
            (Some(pool), _) => random.pick(pool).to_string(),
            (None, _) => one(random),
        };
        if !names.contains(&name) && !REGISTERS.contains(&name.as_str()) {
            names.push(name);
        }
    }
    names
}

fn one(random: &mut Random) -> String {
    let pools: [&[&str]; 5] = [&PLAIN, &KEYS, &LIKE_STEPS, &LIKE_REGISTERS, &LIKE_OTHERS];
    if random.one_in(3) {
        return any(random);
    }
    let pool = random.pick(&pools);
    random.pick(pool).to_string()
}

/// Any letters; the longest often.
fn any(random: &mut Random) -> String {
    let short = 1 + random.below(MOST_CHARACTERS);
    let length = random.pick(&[short, 2, MOST_CHARACTERS]);
    let first = random.pick(BEGIN);
    let behind = (1..length).map(|_| random.pick(GO_ON));
    let bytes: Vec<u8> = [first].into_iter().chain(behind).collect();
    bytes.into_iter().map(char::from).collect()
}
