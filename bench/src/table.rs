//! The cases that are measured, from eight runs to a million: eleven that were measured before a thread had more than eight
//! instructions, and three of sixteen.

use crate::case::{Case, Operation, Operation::*};

const X: u8 = 0;
const Y: u8 = 1;
const Z: u8 = 2;
const W: u8 = 3;

/// The budget of the question program.
const BUDGET: u32 = 1_000_000;

type Wants<'a> = &'a [(u8, u32)];

fn case(name: &'static str, locations: u8, threads: &[&[Operation]], wants: Wants) -> Case {
    let threads = threads.iter().map(|instructions| instructions.to_vec()).collect();
    Case { wants: wants.to_vec(), budget: BUDGET, ..Case::of(name, locations, threads) }
}

/// So many stores of rising words.
fn stores(count: u32, location: u8, first: u32) -> Vec<Operation> {
    (first..first + count).map(|word| StoreWord(location, word)).collect()
}

fn of_one_thread() -> Vec<Case> {
    let outage = [StoreWord(X, 500), StoreWord(Y, 1)];
    let repaired = [StoreWord(X, 500), FlushOpt(X), Sfence, StoreWord(Y, 1)];
    let fenced = [StoreWord(X, 1), FlushOpt(X), FlushOpt(X), Sfence, StoreWord(Y, 1), FlushOpt(X), Mfence];
    vec![
        case("the outage", 2, &[&outage], &[(X, 0), (Y, 1)]),
        case("the outage repaired", 2, &[&repaired], &[(X, 0), (Y, 1)]),
        Case { passed: vec![(0, 7)], ..case("flush-opts fenced", 2, &[&fenced], &[(X, 0)]) },
    ]
}

fn of_more_threads() -> Vec<Case> {
    let own_store_read = [StoreWord(X, 1), Load(X, 0), StoreRegister(Y, 0)];
    let flushed = [StoreWord(X, 1), Flush(X), StoreWord(Y, 1)];
    let copied_to_z = [Load(Y, 0), StoreRegister(Z, 0)];
    let flushed_later = [StoreWord(X, 1), FlushOpt(X)];
    let copied_to_y = [Load(X, 1), StoreRegister(Y, 1)];
    let swap = [StoreWord(X, 1), Exchange(Y, 0, 2), StoreRegister(X, 0)];
    let swap_between = [FlushOpt(X), Exchange(Y, 1, 5), Mfence, Flush(X)];
    let compare = [StoreWord(X, 1), Load(Z, 0), Compare(Y, 0, 2), StoreRegister(X, 0)];
    let compare_flushed = [Load(Z, 1), Compare(Y, 1, 5), Flush(X)];
    let writers: [&[Operation]; 2] = [&[StoreWord(X, 1)], &[StoreWord(Y, 1)]];
    let readers: [&[Operation]; 2] = [&[Load(X, 0), Load(Y, 1)], &[Load(Y, 0), Load(X, 1)]];
    vec![
        case("read while waiting", 3, &[&own_store_read, &copied_to_z], &[(X, 0), (Y, 0), (Z, 1)]),
        case("flushed, handed on", 3, &[&flushed, &copied_to_z], &[(X, 0), (Z, 1)]),
        case("swaps", 2, &[&swap, &swap_between], &[(X, 5), (Y, 5)]),
        case("compares, one fails", 3, &[&compare, &compare_flushed], &[(X, 5), (Y, 2)]),
        case("writers and readers", 2, &[writers, readers].concat(), &[(X, 2)]),
        case("three threads", 3, &[&flushed_later, &copied_to_y, &[StoreWord(Z, 1)]], &[(Y, 2)]),
    ]
}

/// Four threads full of so many instructions, whose walk goes down all the way.
fn deep([reached, used_up]: [&'static str; 2], count: u32) -> Vec<Case> {
    let [x, y, z, w] = [X, Y, Z, W].map(|location| stores(count, location, 1));
    let (flush_opts, more_y) = (vec![FlushOpt(X); count as usize], stores(count, Y, count + 1));
    vec![
        case(reached, 2, &[&flush_opts, &x, &y, &more_y], &[(X, count - 3), (Y, 2 * count)]),
        case(used_up, 4, &[&x, &y, &z, &w], &[(X, count - 1), (W, count)]),
    ]
}

/// A row of seven words with their fence, then the valid word: sixteen instructions.
fn wide_row() -> Case {
    let words = 0..7;
    let row = [
        words.clone().map(|word| StoreWord(word, 5)).collect(),
        words.map(FlushOpt).collect(),
        vec![Sfence, StoreWord(7, 1)],
    ];
    case("a row of seven words", 8, &[&row.concat()], &[(X, 0), (7, 1)])
}

pub fn cases() -> Vec<Case> {
    let eights = deep(["deep, reached", "deep, budget used up"], 8);
    let sixteens = deep(["sixteens, reached", "sixteens, used up"], 16);
    [of_one_thread(), of_more_threads(), eights, vec![wide_row()], sixteens].concat()
}
