//! The question: the rows of document 01 that ask one, the order of refusals, the lent bytes.

use crate::judge::ask::{question, search, End};
use crate::judge::case::{Case, Instruction};
use crate::judge::machine::steps::{issue, persist, printed};
use crate::judge::machine::work::full_length;
use crate::judge::reading::read;
use crate::judge::writing::encode;
use crate::streams::cases::generate::valid::ROW;
use crate::tests::by_hand::*;

/// The number and the run that is shown.
fn told(case: &Case, budget: u32) -> (u8, String) {
    match search(case, budget).end {
        End::Reached(run) => (100, printed(&run)),
        End::Unreachable => (101, String::new()),
        End::Undecided => (102, String::new()),
    }
}

const MILLION: u32 = 1_000_000;

#[test]
fn no_instructions() {
    let case = asking(&[], &[(X, 0)], 0);
    assert_eq!(full_length(&case), Ok(0));
    assert_eq!(told(&case, 0).0, 102);
    assert_eq!(told(&case, 1), (100, String::new()));
    assert_eq!(told(&case, u32::MAX), (100, String::new()));
    let never = asking(&[], &[(X, 1)], 0);
    assert_eq!(told(&never, 0).0, 102);
    assert_eq!(told(&never, 1).0, 101);
    assert_eq!(told(&never, u32::MAX).0, 101);
}

#[test]
fn two_stores() {
    let case = read(&ROW).case;
    assert_eq!(told(&case, 7).0, 102);
    let reached = (100, "I0 I0 M0.0 M0.0 P1".to_string());
    for budget in [8, 9, MILLION, u32::MAX] {
        assert_eq!(told(&case, budget), reached);
    }
}

/// Store x, something, store y; wanted are the old x and the new y.
#[test]
fn something_between_two_stores() {
    let with = |between: &[Instruction]| {
        let code = [&[store(X, 500)], between, &[store(Y, 1)]].concat();
        let case = asking(&code, &[(X, 0), (Y, 1)], 0);
        (told(&case, MILLION).0, full_length(&case))
    };
    assert_eq!(with(&[]), (100, Ok(6)));
    assert_eq!(with(&[flush(X)]), (101, Ok(8)));
    assert_eq!(with(&[flush_opt(X)]), (100, Ok(9)));
    assert_eq!(with(&[flush_opt(X), SFENCE]), (101, Ok(11)));
}

#[test]
fn an_issued_sfence_is_not_a_finished_one() {
    let mut code = vec![store(X, 5), flush_opt(X), SFENCE];
    let case = asking(&code, &[(X, 0)], 3);
    assert_eq!(told(&case, 3).0, 102);
    assert_eq!(told(&case, 4), (100, "I0 I0 I0".to_string()));
    code.push(MFENCE);
    let fenced = asking(&code, &[(X, 0)], 4);
    assert_eq!(told(&fenced, MILLION).0, 101);
}

#[test]
fn not_wanted_is_not_wanted_0() {
    let mut open = asking(&[store(Y, 1)], &[(Y, 1)], 0);
    open.first[0] = 7;
    assert_eq!(told(&open, MILLION), (100, "I0 M0.0 P1".to_string()));
    let mut closed = open.clone();
    closed.wanted[0] = true;
    assert_eq!(told(&closed, MILLION).0, 101);
    closed.want[0] = 7;
    assert_eq!(told(&closed, MILLION), told(&open, MILLION));
}

#[test]
fn passed_counts_alone() {
    let code = [store(X, 1), MFENCE, store(Y, 1)];
    let fenced = "I0 M0.0 I0".to_string();
    assert_eq!(told(&asking(&code, &[], 0), 1), (100, String::new()));
    assert_eq!(told(&asking(&code, &[], 1), 2), (100, "I0".to_string()));
    assert_eq!(told(&asking(&code, &[], 2), 4), (100, fenced));
    assert_eq!(told(&asking(&code, &[], 2), 3).0, 102);
}

/// The number, the place and the buffer, each byte 0xA5 beforehand.
fn asked(input: &[u8], room: usize, budget: u32) -> (u8, usize, Vec<u8>) {
    let mut lent = vec![0xA5; room];
    let reply = question(input, &mut lent, budget);
    (reply.number, reply.place, lent)
}

#[test]
fn reading_then_31_then_the_walk() {
    let untouched = |number, place, room| (number, place, vec![0xA5; room]);
    for (room, budget) in [(0, 0), (47, 8), (48, 8), (8192, u32::MAX)] {
        assert_eq!(asked(&ROW[..45], room, budget), untouched(1, 41, room));
    }
    // The run shown would have room in 40 bytes.
    for (room, budget) in [(0, 0), (0, 8), (40, 8), (47, 0), (47, u32::MAX)] {
        assert_eq!(asked(&ROW, room, budget), untouched(31, 0, room));
    }
    assert_eq!(asked(&ROW, 48, 0), untouched(102, 0, 48));
    assert_eq!(asked(&ROW, 48, 7), untouched(102, 0, 48));
    let empty = encode(&asking(&[], &[(X, 1)], 0));
    assert_eq!(asked(&empty, 0, 1), untouched(101, 0, 0));
    assert_eq!(asked(&empty, 9, 1), untouched(101, 0, 9));
}

#[test]
fn the_run_stands_at_the_front_and_nothing_behind_is_touched() {
    let records: Vec<u8> = [
        [0, 0, 0, 0],
        [0, 0, 0, 0],
        [0, 1, 0, 0],
        [0, 1, 0, 0],
        [0, 2, 0, 1],
    ]
    .iter()
    .flat_map(|fields| [&[4, 0, 6, 0], &fields[..]].concat())
    .collect();
    for room in [48, 49, 8192] {
        let (number, place, lent) = asked(&ROW, room, 8);
        assert_eq!((number, place), (100, 5));
        assert_eq!(lent[..40], records);
        assert!(lent[40..].iter().all(|&byte| byte == 0xA5));
    }
}

#[test]
fn steps_of_the_input_are_not_looked_at() {
    let mut case = read(&ROW).case;
    for steps in [vec![issue(0)], vec![persist(X); 192], vec![issue(0); 3]] {
        case.set_run(&steps);
        for (room, budget) in [(47, 8), (48, 7), (48, 8), (60, MILLION)] {
            let with_steps = asked(&encode(&case), room, budget);
            assert_eq!(with_steps, asked(&ROW, room, budget));
        }
    }
}

/// Sixty-four stores: the walk's first branch has all 192 steps, and its last run is the 193rd.
#[test]
fn the_deepest_branch() {
    let code = [[store(X, 1); 16], [store(X, 2); 16], [store(X, 3); 16]];
    let mut case = program(&[&code[0], &code[1], &code[2]]);
    case.threads = 4;
    case.counts[3] = 16;
    case.code[48..].fill(store(Y, 4));
    case.code[63] = store(Y, 5);
    case.wanted[1] = true;
    case.want[1] = 5;
    let file = encode(&case);
    assert_eq!(asked(&file, 1535, 193).0, 31);
    assert_eq!(asked(&file, 1536, 192).0, 102);
    let (number, place, lent) = asked(&file, 1536, 193);
    assert_eq!((number, place), (100, 192));
    assert_eq!(lent[..8], [4, 0, 6, 0, 0, 0, 0, 0]);
    assert_eq!(
        lent[504..520],
        [4, 0, 6, 0, 3, 0, 0, 0, 4, 0, 6, 0, 0, 1, 0, 0]
    );
    assert_eq!(lent[1528..], [4, 0, 6, 0, 0, 2, 0, 1]);
}
