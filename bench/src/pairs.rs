//! Pairs of judged runs that differ in what some of their steps do, so that the difference is what it costs. The looks
//! are loads, exchanges and compares that go through full buffers and queues, beside as many that find nothing to go through.
//! A load is an instruction too: the fullest buffer that one can look through has fifteen entries, the fullest queue
//! sixty-three; with threads of eight instructions, which earlier builds take too, seven and thirty-one.

use crate::case::{Case, Operation, Operation::*, Step, Step::*};

const X: u8 = 0;
const Y: u8 = 1;

/// Three threads of eight, and a fourth that only looks.
const EIGHTS: [usize; 4] = [8, 8, 8, 0];

/// A run, how many of its steps are counted, and the run beside it.
pub struct Pair {
    pub counted: u32,
    pub run: Case,
    pub beside: Case,
}

fn run(name: &'static str, threads: Vec<Vec<Operation>>, steps: Vec<Step>) -> Case {
    Case { steps, ..Case::of(name, 8, threads) }
}

/// Each thread's instructions in turn, with the steps that each takes.
fn in_turn(threads: &[Vec<Operation>], steps: fn(u8) -> Vec<Step>) -> Vec<Step> {
    let each =
        |(thread, instructions): (usize, &Vec<Operation>)| steps(thread as u8).repeat(instructions.len());
    threads.iter().enumerate().flat_map(each).collect()
}

fn issued(thread: u8) -> Vec<Step> {
    vec![Issue(thread)]
}

fn queued(thread: u8) -> Vec<Step> {
    vec![Issue(thread), Move(thread, 0)]
}

fn persisted(thread: u8) -> Vec<Step> {
    vec![Issue(thread), Move(thread, 0), Persist(X)]
}

/// Four threads of so many stores: their moves, or their persists, against the same without.
fn stores(name: &'static str, count: usize, [with, without]: [fn(u8) -> Vec<Step>; 2]) -> Pair {
    let [run, beside] = [with, without].map(|steps| {
        let threads = vec![vec![StoreWord(X, 1); count]; 4];
        let steps = in_turn(&threads, steps);
        run(name, threads, steps)
    });
    Pair { counted: 4 * count as u32, run, beside }
}

/// In each thread a load behind so many waiting stores; beside it the load comes first.
fn behind_stores(name: &'static str, count: usize, loaded: u8) -> Pair {
    let (stores, load) = (vec![StoreWord(X, 1); count], vec![Load(loaded, 0)]);
    let [run, beside] = [[&stores, &load], [&load, &stores]].map(|[first, then]| {
        let threads = vec![[&first[..], &then[..]].concat(); 4];
        let steps = in_turn(&threads, issued);
        run(name, threads, steps)
    });
    Pair { counted: 4, run, beside }
}

/// What three threads issue, and the fourth at first, goes to X's queue; then the fourth looks, there or, beside it,
/// in empty queues.
fn behind_queue(name: &'static str, entry: Operation, counts: [usize; 4], looks: [Vec<Operation>; 2]) -> Pair {
    let count = looks[0].len();
    let [run, beside] = looks.map(|looks| {
        let mut threads = counts.map(|count| vec![entry; count]).to_vec();
        let queue = in_turn(&threads, queued);
        threads[3].extend(looks);
        run(name, threads, [queue, vec![Issue(3); count]].concat())
    });
    Pair { counted: count as u32, run, beside }
}

pub fn pairs() -> Vec<Pair> {
    let write = StoreWord(X, 1);
    let loads = |count| [X, Y].map(|location| vec![Load(location, 0); count]);
    let swap = |location| Exchange(location, 0, 1);
    // the exchange gives the register the word that the compares find
    let compares = |first, others: [u8; 6]| {
        [vec![swap(first)], others.map(|location| Compare(location, 0, 1)).to_vec()].concat()
    };
    vec![
        stores("move", 8, [queued, issued]),
        stores("persist", 8, [persisted, queued]),
        behind_stores("load behind 7 stores", 7, X),
        behind_stores("load past 7 stores", 7, Y),
        behind_queue("load behind 24 writes", write, EIGHTS, loads(8)),
        behind_queue("load behind 31 writes", write, [8, 8, 8, 7], loads(1)),
        behind_queue("load past 24 markers", FlushOpt(X), EIGHTS, loads(8)),
        behind_queue("swap behind 24 writes", write, EIGHTS, [vec![swap(X); 7], (1..8).map(swap).collect()]),
        behind_queue("compare, 24 writes", write, EIGHTS, [compares(X, [X; 6]), compares(Y, [2, 3, 4, 5, 6, 7])]),
        stores("move, 64 stores", 16, [queued, issued]),
        stores("persist, 64 stores", 16, [persisted, queued]),
        behind_stores("load behind 15 stores", 15, X),
        behind_queue("load behind 63 writes", write, [16, 16, 16, 15], loads(1)),
    ]
}
