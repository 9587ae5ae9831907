//! Cache lines by hand: headers and their checks, number 32, rows that judge a run or ask a question.

use crate::judge::ask::{search, End};
use crate::judge::case::{Case, Instruction, Step};
use crate::judge::form::fits;
use crate::judge::lines::count;
use crate::judge::machine::judge::{judge, single_step, LEGAL};
use crate::judge::machine::state::{Held, State};
use crate::judge::machine::steps::{all_steps, issue, persist, printed, shift};
use crate::judge::reading::read;
use crate::judge::writing::{encode, write};
use crate::streams::layouts::{self, Layout};
use crate::streams::machine::generate::runs::runs_for_tests;
use crate::streams::random::Random;
use crate::tests::by_hand::*;

/// x and y on one line, z on the other.
fn rows() -> Layout {
    Layout::told(&[0, 0, 1])
}

#[test]
fn numbers_in_the_order_of_their_first_location() {
    let good: [&[u8]; 6] = [
        &[],
        &[0],
        &[0, 0],
        &[0, 1, 0, 2, 1],
        &[0; 16],
        &[0, 1, 2, 3, 4, 5, 6, 7, 8, 9, 10, 11, 12, 13, 14, 15],
    ];
    assert_eq!(good.map(count), [0, 1, 1, 3, 1, 16].map(Some));
    let bad: [&[u8]; 6] = [&[1], &[0, 2], &[1, 0], &[0, 1, 3], &[0, 255], &[255, 0]];
    assert_eq!(bad.map(count), [None; 6]);
    // All of four locations: a number is good if every lower one stands before it.
    for all in 0..625u32 {
        let lines: Vec<u8> = (0..4).map(|at| (all / 5u32.pow(at) % 5) as u8).collect();
        let before = |at: usize, lower: u8| lines[..at].contains(&lower);
        let good = (0..4).all(|at| (0..lines[at]).all(|lower| before(at, lower)));
        assert_eq!(count(&lines).is_some(), good, "{lines:?}");
    }
}

/// A program record with that payload, alone.
fn number(payload: &[u8]) -> u8 {
    let bytes = [&[payload.len() as u8, 0, 1, 0], payload].concat();
    let reading = read(&bytes);
    match reading.number {
        0 => assert_eq!(
            (reading.offset, encode(&reading.case)),
            (bytes.len(), bytes)
        ),
        _ => assert_eq!((reading.offset, reading.case), (0, Case::empty())),
    }
    reading.number
}

#[test]
fn headers() {
    assert_eq!(number(&[2, 0, 1, 2, 0, 0]), 0);
    assert_eq!(number(&[2, 0, 1, 2, 0, 1]), 0);
    assert_eq!(number(&[2, 0, 4, 8, 0, 1, 0, 2, 2, 3, 1, 0]), 0);
    let own: Vec<u8> = (0..16).collect();
    assert_eq!(number(&[&[2, 0, 4, 16], &own[..]].concat()), 0);
    assert_eq!(number(&[&[2, 0, 4, 15], &own[..15]].concat()), 0);
    assert_eq!(number(&[&[2, 0, 4, 16], &own[..15]].concat()), 3);
    assert_eq!(number(&[1, 0, 4, 16]), 0);
    assert_eq!(number(&[1, 0, 4, 17]), 5);
    assert_eq!(number(&[2, 0, 1, 2, 0, 2]), 8);
    assert_eq!(number(&[2, 0, 1, 2, 1, 0]), 8);
    assert_eq!(number(&[2, 0, 1, 2, 255, 0]), 8);
    assert_eq!(number(&[2, 0, 1, 2, 0, 0, 1]), 3);
    assert_eq!(number(&[2, 0, 1, 2, 0]), 3);
    assert_eq!(number(&[2, 0, 1, 2]), 3);
    assert_eq!(number(&[1, 0, 1, 2]), 0);
    for length in 5..=20 {
        let mut payload = vec![1, 0, 1, 2];
        payload.resize(length, 0);
        assert_eq!(number(&payload), 3);
    }
}

#[test]
fn what_a_header_says() {
    let told = read(&[7, 0, 1, 0, 2, 0, 3, 3, 0, 1, 0]).case;
    assert_eq!((told.version, told.threads, told.locations), (2, 3, 3));
    assert_eq!((told.lines, &told.line[..4]), (2, &[0, 1, 0, 0][..]));
    let own = read(&[4, 0, 1, 0, 1, 0, 3, 3]).case;
    assert_eq!((own.version, own.threads, own.locations), (1, 3, 3));
    assert_eq!((own.lines, &own.line[..4]), (3, &[0, 1, 2, 0][..]));
    let empty = Case::empty();
    assert_eq!((empty.version, empty.lines, empty.line), (1, 1, [0; 16]));
}

/// Two faults in one header: the check that comes first.
#[test]
fn the_order_of_a_headers_checks() {
    let number = |bytes: &[u8]| read(bytes).number;
    let misplaced = |bytes: &[u8]| {
        let reading = read(&[&[4, 0, 1, 0, 1, 0, 1, 1], bytes].concat());
        assert_eq!(reading.offset, 8);
        reading.number
    };
    // A length outside 4 to 20, before the cut, 4, 5 and 8.
    for length in [0, 3, 21, 255] {
        assert_eq!(number(&[length, 0, 1, 0, 9]), 3);
        assert_eq!(misplaced(&[length, 0, 1, 0, 9]), 3);
    }
    let seventeen = |length: u8, lines: usize| {
        let head = [length, 0, 1, 0, 2, 0, 1, 17];
        number(&[&head[..], &vec![0; lines]].concat())
    };
    assert_eq!(seventeen(21, 17), 3);
    assert_eq!(number(&[255, 255, 1, 0, 1, 0, 1, 1]), 3);
    // Cut, before 4, 5, the other 3 and 8.
    assert_eq!(misplaced(&[6, 0, 1, 0, 2, 0, 1, 2, 0]), 1);
    assert_eq!(number(&[6, 0, 1, 0, 3, 0, 1, 2, 0]), 1);
    assert_eq!(number(&[20, 0, 1, 0, 1, 0, 1, 2]), 1);
    assert_eq!(number(&[6, 0, 1, 0, 2, 0, 1, 2, 1]), 1);
    // 4, before 5, the other 3 and 8.
    assert_eq!(misplaced(&[6, 0, 1, 0, 3, 0, 1, 2, 0, 0]), 4);
    assert_eq!(misplaced(&[5, 0, 1, 0, 1, 0, 1, 2, 0]), 4);
    assert_eq!(misplaced(&[6, 0, 1, 0, 2, 0, 1, 2, 0, 2]), 4);
    // 5, before the other 3 and 8.
    assert_eq!(number(&[5, 0, 1, 0, 3, 0, 1, 2, 0]), 5);
    assert_eq!(seventeen(20, 16), 5);
    assert_eq!(number(&[6, 0, 1, 0, 2, 0, 0, 2, 0, 2]), 5);
    // The other 3, before 8.
    assert_eq!(number(&[7, 0, 1, 0, 2, 0, 1, 2, 1, 0, 0]), 3);
    assert_eq!(number(&[6, 0, 1, 0, 1, 0, 1, 2, 1, 0]), 3);
}

/// Whether the case is readable once it is changed; writing tells the same.
fn readable(case: &Case, change: fn(&mut Case)) -> bool {
    let mut case = case.clone();
    change(&mut case);
    let (number, _) = write(&case, &mut [0; 2640]);
    assert_eq!(fits(&case), number == 0);
    assert!(number == 0 || number == 32);
    number == 0
}

#[test]
fn cases_that_no_bytes_read_as() {
    let told = laid_out(&Layout::told(&[0, 1, 0]), &[&[]]);
    assert!(readable(&told, |_| {}));
    assert!(readable(&told, |case| case.line[2] = 1));
    assert!(!readable(&told, |case| case.line[2] = 2));
    assert!(!readable(&told, |case| case.line[1] = 0));
    assert!(!readable(&told, |case| case.line[3] = 1));
    assert!(!readable(&told, |case| case.lines = 1));
    assert!(!readable(&told, |case| case.lines = 3));
    assert!(!readable(&told, |case| case.version = 1));
    assert!(!readable(&told, |case| case.version = 0));
    assert!(!readable(&told, |case| case.version = 3));
    assert!(!readable(&told, |case| case.version = 257));
    let own = layouts::apart(&told);
    assert!(readable(&own, |_| {}));
    assert!(readable(&own, |case| case.version = 2));
    assert!(!readable(&own, |case| case.line[2] = 1));
    assert!(!readable(&own, |case| case.lines = 2));
    assert!(!readable(&own, |case| case.line[7] = 7));
    assert!(!readable(&own, |case| case.line[15] = 15));
    assert!(!readable(&own, |case| case.set_lines(1, &[0, 0, 1])));
    assert!(readable(&own, |case| case.set_lines(2, &[0, 0, 1])));
}

/// Persists are named by line, in the run of a case too.
#[test]
fn a_line_that_the_program_lacks() {
    let case = laid_out(&rows(), &[&[]]);
    // One issue and sixteen moves come before.
    assert_eq!(all_steps(&case)[17..], [persist(0), persist(1)]);
    let run = |line: u8| [&encode(&case)[..], &[4, 0, 6, 0, 0, 2, 0, line]].concat();
    assert_eq!((read(&run(1)).number, read(&run(2)).number), (0, 5));
    let step = |line| single_step(&case, State::start(&case), &persist(line)).number;
    assert_eq!((step(1), step(2), step(16)), (29, 5, 5));
    let mut with_run = case.clone();
    with_run.set_run(&[persist(2)]);
    assert!(!fits(&with_run));
}

/// Number and place of a run.
fn told(layout: &Layout, code: &[&[Instruction]], steps: &[Step]) -> (u8, usize) {
    let mut case = laid_out(layout, code);
    case.set_run(steps);
    let verdict = judge(&case);
    (verdict.number, verdict.place)
}

#[test]
fn flushes_and_flush_opts_wait_for_their_line() {
    let own = Layout::told(&[0, 1, 2]);
    let barred = [issue(0), issue(0), shift(0, 1)];
    for before in [store(X, 500), flush(X)] {
        assert_eq!(told(&rows(), &[&[before, flush_opt(Y)]], &barred), (26, 2));
        assert_eq!(
            told(&rows(), &[&[before, flush_opt(Z)]], &barred),
            (LEGAL, 3)
        );
        assert_eq!(told(&own, &[&[before, flush_opt(Y)]], &barred), (LEGAL, 3));
    }
    // The other location's number is that of the other line.
    for before in [store(Y, 500), flush(Y)] {
        assert_eq!(told(&rows(), &[&[before, flush_opt(X)]], &barred), (26, 2));
        let passing = told(&rows(), &[&[before, flush_opt(Z)]], &barred);
        assert_eq!(passing, (LEGAL, 3));
    }
    let passed = [flush_opt(X), flush_opt(Y)];
    assert_eq!(told(&rows(), &[&passed], &barred), (LEGAL, 3));
    let filled = [issue(0), issue(0), shift(0, 0), shift(0, 0)];
    for before in [store(X, 500), flush_opt(X)] {
        assert_eq!(told(&rows(), &[&[before, flush(Y)]], &filled), (27, 3));
        assert_eq!(told(&rows(), &[&[before, flush(Z)]], &filled), (LEGAL, 4));
        assert_eq!(told(&own, &[&[before, flush(Y)]], &filled), (LEGAL, 4));
    }
    let gone = [issue(0), issue(0), shift(0, 0), persist(0), shift(0, 0)];
    assert_eq!(
        told(&rows(), &[&[store(X, 500), flush(Y)]], &gone),
        (LEGAL, 5)
    );
    // Another line's queue is empty.
    let empty = [issue(0), shift(0, 0), persist(1)];
    assert_eq!(told(&rows(), &[&[store(Y, 1)]], &empty), (29, 2));
}

/// One queue, in the order of the moves; each write goes to its own location.
#[test]
fn writes_of_a_line_persist_in_their_order() {
    let code = [store(Y, 1), store(X, 2), flush_opt(Y), store(Z, 3)];
    let mut case = laid_out(&rows(), &[&code]);
    let mut steps = [issue(0), shift(0, 0)].repeat(4);
    case.set_run(&steps);
    let state = judge(&case).state;
    let held = [Held::write(Y, 1), Held::write(X, 2), Held::marker(0)];
    assert_eq!(state.queues[0].used(), held);
    assert_eq!(state.queues[1].used(), [Held::write(Z, 3)]);
    assert_eq!(held.map(|held| held.mark), [1, 0, 128]);
    for words in [[0, 1, 0], [2, 1, 0], [2, 1, 0]] {
        steps.push(persist(0));
        case.set_run(&steps);
        assert_eq!(judge(&case).state.words[..3], words);
    }
    steps.push(persist(0));
    case.set_run(&steps);
    assert_eq!(judge(&case).number, 29);
}

/// Newer writes of a neighbour are passed over, and where there is no other the word is taken.
#[test]
fn loads_and_exchanges_look_for_their_own_location() {
    let writer = [store(X, 1), store(Y, 2), store(Y, 3)];
    let readers = [load(X, 0), exchange(X, 1, 4), load(Y, 2), load(X, 3)];
    let mut case = laid_out(&rows(), &[&writer, &readers]);
    case.first[..3].copy_from_slice(&[70, 80, 90]);
    let moved = |count: usize| [issue(0), shift(0, 0)].repeat(count);
    case.set_run(&[moved(3), vec![issue(1); 4]].concat());
    let all = judge(&case);
    assert_eq!(all.number, LEGAL);
    assert_eq!(all.state.registers[1], [1, 1, 3, 4]);
    assert_eq!(all.state.queues[0].used()[3], Held::write(X, 4));
    // Only the neighbour's write is queued: x is taken from memory.
    let alone = laid_out(&rows(), &[&[store(Y, 2)], &readers]);
    let mut alone = Case {
        first: case.first,
        ..alone
    };
    alone.set_run(&[moved(1), vec![issue(1); 4]].concat());
    assert_eq!(judge(&alone).state.registers[1], [70, 70, 2, 4]);
    // A neighbour's store in the own buffer is no store of the location.
    let mut own = laid_out(&rows(), &[&[store(Y, 2), load(X, 0)]]);
    own.first[0] = 70;
    own.set_run(&[issue(0), issue(0)]);
    assert_eq!(judge(&own).state.registers[0][0], 70);
}

/// A line each is the same in both versions, and the version is kept.
#[test]
fn lines_of_their_own_are_told_or_not() {
    let mut tried = 0;
    for (case, steps) in runs_for_tests(&mut Random::new(9), 300) {
        if case.lines < case.locations {
            continue;
        }
        let mut own = layouts::apart(&case);
        own.set_run(&steps);
        let mut told = own.clone();
        told.version = 2;
        let (number, place) = (judge(&own).number, judge(&own).place);
        assert_eq!((judge(&told).number, judge(&told).place), (number, place));
        assert_eq!(judge(&told).state, judge(&own).state);
        assert_eq!(read(&encode(&told)).case, told);
        assert_eq!(read(&encode(&own)).case, own);
        tried += 1;
    }
    assert!(tried > 100, "{tried}");
}

/// The number and the run shown, within a million runs.
fn asked(layout: &Layout, code: &[Instruction], wants: &[(u8, u32)]) -> (u8, String) {
    let mut case = laid_out(layout, &[code]);
    want(&mut case, wants);
    match search(&case, 1_000_000).end {
        End::Reached(run) => (100, printed(&run)),
        End::Unreachable => (101, String::new()),
        End::Undecided => (102, String::new()),
    }
}

#[test]
fn a_row_on_one_line_is_not_torn() {
    let code = [store(X, 500), store(Y, 1)];
    let torn = [(X, 0), (Y, 1)];
    assert_eq!(asked(&rows(), &code, &torn).0, 101);
    let half = asked(&rows(), &code, &[(X, 500), (Y, 0)]);
    assert_eq!(half, (100, "I0 I0 M0.0 M0.0 P0".to_string()));
    let reached = (100, "I0 I0 M0.0 M0.0 P1".to_string());
    assert_eq!(asked(&Layout::told(&[0, 1, 2]), &code, &torn), reached);
    assert_eq!(asked(&Layout::own(3), &code, &torn), reached);
}

#[test]
fn a_flush_opt_of_a_neighbour_keeps_the_order() {
    let torn = [(X, 0), (Z, 1)];
    let fenced = [store(X, 500), flush_opt(Y), SFENCE, store(Z, 1)];
    assert_eq!(asked(&rows(), &fenced, &torn).0, 101);
    let open = [store(X, 500), flush_opt(Y), store(Z, 1)];
    let run = "I0 I0 I0 M0.0 M0.0 M0.0 P1".to_string();
    assert_eq!(asked(&rows(), &open, &torn), (100, run));
    assert_eq!(asked(&Layout::own(3), &fenced, &torn).0, 100);
    let flushed = [store(X, 500), flush(Y), store(Z, 1)];
    assert_eq!(asked(&rows(), &flushed, &torn).0, 101);
    assert_eq!(asked(&Layout::own(3), &flushed, &torn).0, 100);
}
