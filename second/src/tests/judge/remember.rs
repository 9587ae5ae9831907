//! The walk that remembers: the rows of the request, its order against the walk of all runs, what is a state, and
//! what is covered.

use crate::judge::ask::{search, End};
use crate::judge::case::{Case, Instruction};
use crate::judge::machine::key;
use crate::judge::machine::steps::printed;
use crate::judge::remember::{covered, recall, remember};
use crate::judge::walk::Walk;
use crate::judge::writing::encode;
use crate::streams::layouts::Layout;
use crate::streams::machine::generate::programs::{self, EVERY};
use crate::streams::question::generate::wants;
use crate::streams::random::Random;
use crate::tests::by_hand::*;

/// The number, the run that is shown, and how many states were looked at.
fn told(case: &Case, covered: u32) -> (u8, String, u32) {
    let found = recall(case, covered);
    let (number, run) = match found.end {
        End::Reached(run) => (100, printed(&run)),
        End::Unreachable => (101, String::new()),
        End::Undecided => (102, String::new()),
    };
    (number, run, found.runs)
}

/// None reaches the question, and there are just so many states.
fn check_unreachable(case: &Case, states: u32) {
    assert_eq!(told(case, states - 1), (102, String::new(), states - 1));
    for covered in [states, states + 1, u32::MAX] {
        assert_eq!(told(case, covered), (101, String::new(), states));
    }
}

/// The word is stored to x and, behind a fence, to y.
fn fenced(word: u32) -> [Instruction; 4] {
    [store(X, word), flush_opt(X), SFENCE, store(Y, word)]
}

#[test]
fn no_instructions() {
    let case = asking(&[], &[(X, 0)], 0);
    assert_eq!(told(&case, 0), (102, String::new(), 0));
    for covered in [1, 2, u32::MAX] {
        assert_eq!(told(&case, covered), (100, String::new(), 1));
    }
    check_unreachable(&asking(&[], &[(X, 1)], 0), 1);
}

#[test]
fn the_outage_repaired() {
    check_unreachable(&asking(&fenced(1), &[(X, 0), (Y, 1)], 0), 26);
}

#[test]
fn two_fences() {
    let code = [
        &fenced(1)[..],
        &[flush_opt(Y), SFENCE, store(Z, 1), flush(Z)],
    ]
    .concat();
    let mut case = laid_out(&Layout::own(3), &[&code]);
    want(&mut case, &[(X, 0), (Z, 1)]);
    check_unreachable(&case, 82);
}

#[test]
fn two_threads_that_fence() {
    let mut case = program(&[&fenced(1), &fenced(2)]);
    want(&mut case, &[(X, 0), (Y, 1)]);
    check_unreachable(&case, 1063);
}

/// The walk of all runs of this has 14 runs, which "a store and another thread's load" has one by one.
#[test]
fn met_in_the_order_of_all_runs() {
    let mut case = program(&[&[store(Y, 1)], &[load(X, 0)]]);
    want(&mut case, &[(Y, 2)]);
    let mut walk = Walk::remembering(&case);
    let mut runs = vec![printed(&walk.run())];
    while walk.go_on() {
        runs.push(printed(&walk.run()));
    }
    let firsts = [
        "",
        "I0",
        "I0 I1",
        "I0 I1 M0.0",
        "I0 I1 M0.0 P1",
        "I0 M0.0",
        "I0 M0.0 P1",
        "I1",
    ];
    assert_eq!(runs, firsts);
    check_unreachable(&case, 8);
}

/// The runs of the walk of all runs to a state that none before led to, found by comparing with all of these, and
/// how many runs there are; none where there are too many.
fn firsts(case: &Case) -> Option<(Vec<String>, usize)> {
    let mut walk = Walk::new(case);
    let mut met = vec![walk.state().clone()];
    let mut firsts = vec![printed(&walk.run())];
    for runs in 1..3000 {
        if !walk.go_on() {
            return Some((firsts, runs));
        }
        if !met.contains(walk.state()) {
            met.push(walk.state().clone());
            firsts.push(printed(&walk.run()));
        }
    }
    None
}

#[test]
fn the_states_of_all_runs_and_no_others() {
    let mut random = Random::new(11);
    let (mut looked, mut shorter) = (0, 0);
    while looked < 150 {
        let sizes: [&[u8]; 5] = [&[4], &[3, 1], &[2, 2], &[1, 1, 1], &[1, 0, 1]];
        let counts = random.pick(&sizes);
        let locations = random.between(1, 3);
        let mut case = programs::program(&mut random, locations, counts, &EVERY);
        if random.one_in(2) {
            programs::tame(&mut random, &mut case);
        }
        wants::add(&mut random, &mut case);
        let (firsts, runs) = match firsts(&case) {
            Some(found) => found,
            None => continue,
        };
        let mut walk = Walk::remembering(&case);
        for (at, first) in firsts.iter().enumerate() {
            assert_eq!(&printed(&walk.run()), first);
            assert_eq!(walk.go_on(), at + 1 < firsts.len());
        }
        check_agreement(&case, firsts.len() as u32);
        looked += 1;
        shorter += u32::from(firsts.len() < runs);
    }
    assert!(shorter > 40, "{shorter}");
}

/// With all states covered: what the walk of all runs says, the run included.
fn check_agreement(case: &Case, states: u32) {
    let (number, run, looked) = told(case, states);
    match search(case, u32::MAX).end {
        End::Reached(first) => assert_eq!((number, run), (100, printed(&first))),
        _ => assert_eq!((number, looked), (101, states)),
    }
    if number == 100 {
        assert_eq!(told(case, looked - 1).0, 102);
    }
}

/// States that differ in one part alone, each counted by hand.
#[test]
fn what_tells_states_apart() {
    let states = |case: &Case| {
        let mut never = case.clone();
        want(&mut never, &[(X, 77)]);
        recall(&never, u32::MAX).runs
    };
    // Before the write, on its way or behind it, the load finds 0 until it has left the buffer: four states where it is
    // not issued, four behind a load of 0, two more behind one of 1.
    assert_eq!(states(&program(&[&[load(X, 0)], &[store(X, 1)]])), 10);
    // An mfence is issued or not, and changes nothing else.
    assert_eq!(states(&program(&[&[MFENCE]])), 2);
    // Either marker may be the older one.
    assert_eq!(states(&program(&[&[flush_opt(X)], &[flush_opt(X)]])), 17);
    // On one line: either write is the older one, though both write 1.
    let shared = laid_out(&Layout::told(&[0, 0]), &[&[store(X, 1)], &[store(Y, 1)]]);
    assert_eq!(states(&shared), 17);
    // Either flush-opt has left the buffer, and the marker does not say which.
    let shared = laid_out(&Layout::told(&[0, 0]), &[&[flush_opt(X), flush_opt(Y)]]);
    assert_eq!(states(&shared), 12);
}

#[test]
fn keys_differ_where_states_do() {
    let case = program(&[&[store(X, 1)], &[store(Y, 2)]]);
    let mut walk = Walk::new(&case);
    let start = walk.state().clone();
    while walk.go_on() {
        let same = key::of(&case, walk.state()) == key::of(&case, &start);
        assert_eq!(same, walk.state() == &start);
    }
    // What stands behind the program's threads, locations and lines, and behind counts, is no part of a state.
    let mut other = start.clone();
    (other.words[2], other.issued[2], other.registers[2][0]) = (1, 1, 1);
    other.queues[2].count = 1;
    other.queues[0].places[0].word = 1;
    assert!(other != start && key::of(&case, &other) == key::of(&case, &start));
}

#[test]
fn the_smaller_of_two_limits() {
    for (words, budget, states) in [
        (0, 5, 0),
        (191, 5, 0),
        (192, 5, 1),
        (383, 5, 1),
        (384, 5, 2),
        (u32::MAX, 5, 5),
        (u32::MAX, u32::MAX, 22_369_621),
        (960, 4, 4),
        (960, 5, 5),
        (960, 6, 5),
        (192, 0, 0),
    ] {
        assert_eq!(covered(words, budget), states, "{words} {budget}");
    }
}

#[test]
fn reading_then_31_then_the_walk() {
    let case = encode(&asking(&fenced(1), &[(X, 0), (Y, 1)], 0));
    let asked = |input: &[u8], room: usize, words, budget| {
        let mut lent = vec![0xA5; room];
        let reply = remember(input, &mut lent, words, budget);
        assert!(lent.iter().all(|&byte| byte == 0xA5));
        (reply.number, reply.place, reply.runs)
    };
    for (words, budget) in [(0, 0), (192, 1), (u32::MAX, u32::MAX)] {
        assert_eq!(asked(&case[..70], 88, words, budget), (1, 65, 0));
        assert_eq!(asked(&case, 87, words, budget), (31, 0, 0));
    }
    assert_eq!(asked(&case, 88, 192 * 26, 26), (101, 0, 26));
    assert_eq!(asked(&case, 88, 192 * 26 - 1, 26), (102, 0, 25));
    assert_eq!(asked(&case, 88, 192 * 26, 25), (102, 0, 25));
    assert_eq!(asked(&case, 88, 0, 26), (102, 0, 0));
}
