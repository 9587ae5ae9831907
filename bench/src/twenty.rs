//! Twenty cases by their number of distinct states, from a store to a few million: those that a search that remembers
//! is held to. None reaches its question, so that a whole search goes through every state.

use crate::case::{Case, Operation, Operation::*};

const X: u8 = 0;
const Y: u8 = 1;
const Z: u8 = 2;
const W: u8 = 3;

/// A word that nobody writes.
const NOBODY: u32 = 99;

/// The budget of the question program.
const BUDGET: u32 = 1_000_000;

fn case(name: &'static str, locations: u8, threads: &[&[Operation]]) -> Case {
    let threads = threads.iter().map(|instructions| instructions.to_vec()).collect();
    Case { wants: vec![(X, NOBODY)], budget: BUDGET, ..Case::of(name, locations, threads) }
}

/// The row's commit with its fence: the limit, then the valid word.
fn row(limit: u8, valid: u8) -> [Operation; 4] {
    [StoreWord(limit, 500), FlushOpt(limit), Sfence, StoreWord(valid, 1)]
}

/// A commit of eight instructions: two words and their fence, then the valid word and its own.
fn commit(first: u8, second: u8, valid: u8) -> [Operation; 8] {
    let (one, other) = (StoreWord(first, 5), StoreWord(second, 6));
    [one, other, FlushOpt(first), FlushOpt(second), Sfence, StoreWord(valid, 1), FlushOpt(valid), Sfence]
}

/// Eight stores of rising words to one location.
fn eight_stores(location: u8) -> [Operation; 8] {
    [1, 2, 3, 4, 5, 6, 7, 8].map(|word| StoreWord(location, word))
}

fn of_one_thread() -> Vec<Case> {
    vec![
        case("a store", 1, &[&[StoreWord(X, 1)]]),
        case("a store flushed", 1, &[&[StoreWord(X, 1), Flush(X)]]),
        case("the outage", 2, &[&[StoreWord(X, 500), StoreWord(Y, 1)]]),
        case("the row repaired", 2, &[&row(X, Y)]),
        case("eight stores", 1, &[&eight_stores(X)]),
        case("a commit of eight", 3, &[&commit(X, Y, Z)]),
    ]
}

fn of_more_threads() -> Vec<Case> {
    let one_row = row(X, Y);
    let one_commit = commit(X, Y, Z);
    let lock = [Load(Z, 0), Compare(X, 0, 1), StoreWord(Y, 1), Flush(Y)];
    let swap = [Exchange(X, 0, 2), StoreRegister(Y, 0), FlushOpt(Y), Mfence];
    let copies = [Load(X, 0), StoreRegister(Y, 0), Load(Y, 1), StoreRegister(Z, 1)];
    let five_words = [X, Y, Z, W, 4].map(|location| StoreWord(location, 1));
    let writers: [&[Operation]; 2] = [&[StoreWord(X, 1)], &[StoreWord(Y, 1)]];
    let readers: [&[Operation]; 2] = [&[Load(X, 0), Load(Y, 1)], &[Load(Y, 0), Load(X, 1)]];
    vec![
        case("two locks", 3, &[&lock, &lock]),
        case("writers and readers", 2, &[writers, readers].concat()),
        case("two rows apart", 4, &[&one_row, &row(Z, W)]),
        case("two writers of one row", 2, &[&one_row, &one_row]),
        case("two swaps", 2, &[&swap, &swap]),
        case("five words twice", 5, &[&five_words, &five_words]),
        case("a commit and copies", 3, &[&one_commit, &copies]),
        case("three rows apart", 6, &[&one_row, &row(Z, W), &row(4, 5)]),
        case("three swaps", 2, &[&swap, &swap, &swap]),
        case("two commits of one row", 3, &[&one_commit, &one_commit]),
        case("a commit, a row, copies", 5, &[&one_commit, &row(W, 4), &copies]),
        case("eight stores twice", 1, &[&eight_stores(X), &eight_stores(X)]),
        case("four writers of one row", 2, &[&one_row, &one_row, &one_row, &one_row]),
        case("two commits, copies", 3, &[&one_commit, &one_commit, &copies]),
    ]
}

/// A case of more states than any side gets through.
pub fn largest() -> Case {
    case("four commits of one row", 3, &[&commit(X, Y, Z)[..]; 4])
}

pub fn cases() -> Vec<Case> {
    [of_one_thread(), of_more_threads()].into_iter().flatten().collect()
}
