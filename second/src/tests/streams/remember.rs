//! Frames of the walk that remembers: their stream, their lines, and what their table finds.

use crate::judge::writing::encode;
use crate::streams::cases::generate::valid::ROW;
use crate::streams::question::frame::Query;
use crate::streams::remember::answer::{answer, line};
use crate::streams::remember::counts::LoanCounts;
use crate::streams::remember::frame::{Limit, Loan};
use crate::streams::tally::Counts;
use crate::tests::by_hand::{asking, store, X};

fn loan(input: &[u8], room: u32, budget: u32, words: u32) -> Loan {
    let query = Query {
        input: input.to_vec(),
        room,
        budget,
    };
    Loan { query, words }
}

/// All but the buffer.
fn told(loan: &Loan) -> String {
    let line = line(loan, &answer(loan));
    let parts: Vec<&str> = line.split(' ').take(4).collect();
    parts.join(" ")
}

#[test]
fn loans_come_back_from_their_stream() {
    let loan = loan(&ROW, 48, 9, 1000);
    let mut stream = Vec::new();
    assert!(loan.write_to(&mut stream).is_ok());
    assert_eq!(stream[..8], [5, 0, 0, 128, 50, 0, 0, 0]);
    assert_eq!(stream[8..16], [48, 0, 0, 0, 9, 0, 0, 0]);
    assert_eq!(stream[16..66], ROW);
    assert_eq!(stream[66..], [232, 3, 0, 0]);
    let mut rest = &stream[..];
    assert_eq!(Loan::read_from(&mut rest).ok(), Some(Some(loan)));
    assert_eq!(Loan::read_from(&mut rest).ok(), Some(None));
    for cut in [15, 16, 65, 66, 69] {
        assert!(Loan::read_from(&mut &stream[..cut]).is_err());
    }
    for (at, byte) in [(0, 3), (3, 0), (5, 33), (9, 33)] {
        let mut other = stream.clone();
        other[at] = byte;
        assert!(Loan::read_from(&mut &other[..]).is_err());
    }
}

#[test]
fn number_place_states_and_memory() {
    // Of the walk of all runs the eighth reaches it, and no state comes again before.
    let row = |room, budget, words| told(&loan(&ROW, room, budget, words));
    assert_eq!(row(48, 8, 192 * 8), "100 5 0 zeros");
    assert_eq!(row(48, 7, 192 * 8), "102 0 7 zeros");
    assert_eq!(row(48, 8, 192 * 8 - 1), "102 0 7 zeros");
    assert_eq!(row(48, 8, 0), "102 0 0 -");
    assert_eq!(row(48, 0, 191), "102 0 0 zeros");
    assert_eq!(row(47, 8, 192 * 8), "31 0 0 kept");
    assert_eq!(row(47, 8, 0), "31 0 0 -");
    assert_eq!(told(&loan(&ROW[..45], 48, 8, 1)), "1 41 0 kept");
    // The store is not issued, or in the buffer, in the queue or in memory.
    let never = encode(&asking(&[store(X, 1)], &[(X, 2)], 0));
    assert_eq!(told(&loan(&never, 24, 4, u32::MAX)), "101 0 4 zeros");
    assert_eq!(told(&loan(&never, 24, u32::MAX, 192 * 4)), "101 0 4 zeros");
    assert_eq!(told(&loan(&never, 24, 3, u32::MAX)), "102 0 3 zeros");
    let whole = |loan: &Loan| line(loan, &answer(loan));
    assert_eq!(whole(&loan(&never, 0, 4, 0)), "31 0 0 - -\n");
    assert_eq!(whole(&loan(&[], 1, 4, 1)), "1 0 0 kept a5\n");
}

#[test]
fn what_limits() {
    let limit = |budget, words| loan(&ROW, 48, budget, words).limit();
    assert_eq!(limit(2, 191 + 2 * 192), Limit::Both);
    assert_eq!(limit(2, 3 * 192), Limit::Budget);
    assert_eq!(limit(2, 2 * 192 - 1), Limit::Memory);
}

/// One state less must be 102, by the budget and by the memory.
#[test]
fn a_case_that_is_not_tried_with_one_less_is_found() {
    let by_budget = [loan(&ROW, 48, 8, 2000), loan(&ROW, 48, 7, 2000)];
    let by_memory = [loan(&ROW, 48, 9, 1536), loan(&ROW, 48, 9, 1535)];
    let found = |loans: &[Loan]| {
        let mut counts = LoanCounts::new();
        loans.iter().for_each(|loan| counts.take(loan));
        counts.wrong()
    };
    let all = [by_budget.clone(), by_memory.clone()].concat();
    assert!(found(&all).is_empty());
    for loans in [&by_budget[..], &by_memory, &all[..3], &all[1..]] {
        assert_eq!(found(loans), ["1 cases: one state less is not 102"]);
    }
}
