//! What is counted of the programs: sums over all that were gone through.

use super::ledger::Known;
use crate::judge::machine::rules::COMPARE;
use crate::judge::whole::program::code;
use crate::streams::tally::{sort as sum, Sort as Sum};

pub const SUMS: [Sum<fn(&Known) -> u128>; 53] = [
    sum("different programs", 300, |_| 1),
    sum("threads 1, locations 3", 50, |k| sized(k, 1, 3)),
    sum("threads 2, locations 2", 50, |k| sized(k, 2, 2)),
    sum("threads 2, locations 3", 50, |k| sized(k, 2, 3)),
    sum("threads 3, locations 2", 50, |k| sized(k, 3, 2)),
    sum("threads 4, locations 2", 50, |k| sized(k, 4, 2)),
    sum("full length above 18", 2, |k| {
        u128::from(k.program.full > 18)
    }),
    sum("first contents", 100, |k| {
        let firsts = k.program.case.first.iter();
        firsts.filter(|&&word| word != 0).count() as u128
    }),
    sum("instructions: store word", 200, |k| instructions(k, 1)),
    sum("instructions: store register", 200, |k| instructions(k, 2)),
    sum("instructions: load", 130, |k| instructions(k, 3)),
    sum("instructions: exchange", 120, |k| instructions(k, 4)),
    sum("instructions: flush", 40, |k| instructions(k, 5)),
    sum("instructions: flush-opt", 100, |k| instructions(k, 6)),
    sum("instructions: sfence", 25, |k| instructions(k, 7)),
    sum("instructions: mfence", 25, |k| instructions(k, 8)),
    sum("instructions: compare", 700, |k| instructions(k, COMPARE)),
    sum("programs with a compare", 500, compares),
    sum("programs with both outcomes", 200, |k| {
        u128::from(k.found.succeeded > 0 && k.found.failed > 0)
    }),
    sum("programs, no compare ever succeeds", 10, |k| {
        u128::from(k.found.succeeded == 0) * compares(k)
    }),
    sum("programs, no compare ever fails", 10, |k| {
        u128::from(k.found.failed == 0) * compares(k)
    }),
    sum("programs with ends of two lengths", 100, |k| {
        u128::from(k.found.failures.len() > 1)
    }),
    sum("steps: store register", 40_000, |k| k.found.stored.into()),
    sum("steps: compare succeeds", 20_000, |k| {
        k.found.succeeded.into()
    }),
    sum("steps: compare fails", 80_000, |k| k.found.failed.into()),
    sum("ends, a thread made no write", 200, |k| {
        k.found.unmade.into()
    }),
    sum("ends, no thread made a write", 50, |k| {
        k.found.left_alone.into()
    }),
    sum("programs without a compare", 250, |k| 1 - compares(k)),
    sum("states", 80_000, |k| k.found.states.into()),
    sum("steps", 200_000, |k| k.found.steps.into()),
    sum("states without a step", 500, |k| k.found.ends.into()),
    sum("runs that cannot go on", 10_000_000, |k| {
        k.found.finished_runs
    }),
    sum("all runs", 10_000_000, |k| k.found.runs),
    sum("states, two locations in a queue", 1000, |k| {
        k.found.shared.into()
    }),
    sum("programs with such a state", 50, |k| {
        u128::from(k.found.shared > 0)
    }),
    sum("states, each word accounted for", 400_000, |k| {
        k.found.accounted.into()
    }),
    sum("words: the first content", 400_000, |k| {
        k.found.first.into()
    }),
    sum("words: written there", 400_000, |k| k.found.written.into()),
    sum("words: come by a register", 15_000, |k| {
        k.found.carried.into()
    }),
    sum("locations of 0 writers", 150, |k| written_by(k, 0)),
    sum("locations of 1 writer", 200, |k| written_by(k, 1)),
    sum("locations of 2 writers", 60, |k| written_by(k, 2)),
    sum("locations of 3 writers", 15, |k| written_by(k, 3)),
    sum("locations of 4 writers", 1, |k| written_by(k, 4)),
    sum("1 writer, a word last", 120, |k| {
        let all = 0..k.program.writers.len();
        all.filter_map(|at| k.program.only_word(at)).count() as u128
    }),
    sum("pairs of location and writer", 500, |k| {
        k.program.pairs().len() as u128
    }),
    sum("pairs with an end of their own", 450, |k| {
        let pairs = k.program.pairs();
        let own = pairs.iter().filter(|pair| k.found.won_alone.contains(pair));
        own.count() as u128
    }),
    sum("ends of several writers", 400, |k| k.found.contended.into()),
    sum("ends told apart by whose write", 400, |k| {
        k.found.told_apart.into()
    }),
    sum("ends with another thread's word", 30, |k| {
        k.found.handed_on.into()
    }),
    sum("programs with such an end", 20, |k| {
        u128::from(k.found.handed_on > 0)
    }),
    sum("memories at the ends", 400, |k| {
        k.found.memories.len() as u128
    }),
    sum("programs with several memories", 80, |k| {
        u128::from(k.found.memories.len() > 1)
    }),
];

fn compares(known: &Known) -> u128 {
    known.program.compares.into()
}

fn sized(known: &Known, threads: u8, locations: u8) -> u128 {
    let case = &known.program.case;
    u128::from((case.threads, case.locations) == (threads, locations))
}

fn instructions(known: &Known, operation: u8) -> u128 {
    let case = &known.program.case;
    let all = (0..usize::from(case.threads)).flat_map(|thread| code(case, thread));
    all.filter(|one| one.operation == operation).count() as u128
}

fn written_by(known: &Known, threads: usize) -> u128 {
    let all = known.program.writers.iter();
    all.filter(|writers| writers.len() == threads).count() as u128
}
