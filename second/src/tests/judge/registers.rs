//! Number 10: a store from a register, or a compare with it, that nothing before it in its thread sets.

use crate::judge::case::{Case, Instruction};
use crate::judge::form::fits;
use crate::judge::machine::judge::{judge, start};
use crate::judge::reading::read;
use crate::judge::writing::{encode, write};
use crate::tests::by_hand::*;

const STORE: Instruction = Instruction {
    operation: 2,
    location: Y,
    register: 1,
    word: 0,
};

/// Those that take what register 1 holds.
fn takers() -> [Instruction; 2] {
    [STORE, compare(X, 1, 7)]
}

/// Those that set a register.
fn setters(register: u8) -> [Instruction; 2] {
    [load(Y, register), exchange(X, register, 5)]
}

fn number_and_offset(bytes: &[u8]) -> (u8, usize) {
    let reading = read(bytes);
    (reading.number, reading.offset)
}

/// Accepted, and by the form too.
fn check_good(threads: &[&[Instruction]]) {
    let case = program(threads);
    let bytes = encode(&case);
    assert_eq!(number_and_offset(&bytes), (0, bytes.len()));
    assert!(fits(&case));
}

/// Refused with 10 at the record of that instruction, and in memory with 32.
fn check_unset(threads: &[&[Instruction]], at: usize) {
    let case = program(threads);
    assert_eq!(number_and_offset(&encode(&case)), (10, 8 + 12 * at));
    assert!(!fits(&case));
}

#[test]
fn nothing_stands_before() {
    for taker in takers() {
        check_unset(&[&[taker]], 0);
        check_unset(&[&[store(X, 1), taker]], 1);
        check_unset(&[&[flush(X), flush_opt(X), SFENCE, MFENCE, taker]], 4);
        check_unset(&[&[], &[MFENCE], &[taker, load(X, 1)]], 1);
    }
}

#[test]
fn each_that_sets_a_register() {
    for taker in takers() {
        for setter in setters(1) {
            check_good(&[&[setter, taker]]);
            check_good(&[&[setter, store(X, 1), MFENCE, taker, taker]]);
            check_unset(&[&[taker, setter]], 0);
        }
        // A compare, which something has to stand before itself.
        check_good(&[&[load(X, 1), compare(X, 1, 7), taker]]);
    }
    // The last of sixteen.
    let full = [&[load(X, 1)][..], &[MFENCE; 14], &[STORE]].concat();
    check_good(&[&full]);
}

/// A compare takes what its register held before: it does not set it for itself, but for what follows.
#[test]
fn a_compare_by_itself() {
    let twice = [compare(X, 1, 7), compare(X, 1, 8)];
    check_unset(&[&twice], 0);
    check_unset(&[&[compare(X, 1, 7), STORE]], 0);
    check_good(&[&[load(Y, 1), twice[0], twice[1], STORE]]);
}

/// A store from one register sets no other one.
#[test]
fn a_store_behind_a_store() {
    check_unset(&[&[load(X, 0), at(2, Y, 0), STORE]], 2);
    check_unset(&[&[STORE, STORE]], 0);
}

#[test]
fn another_register() {
    for taker in takers() {
        for other in [0, 2, 3] {
            for setter in setters(other) {
                check_unset(&[&[setter, taker]], 1);
                check_good(&[&[setter, load(X, 1), taker]]);
            }
            check_unset(&[&[load(X, other), compare(X, other, 7), taker]], 2);
        }
    }
}

#[test]
fn another_thread() {
    for taker in takers() {
        for setter in setters(1) {
            check_unset(&[&[setter], &[taker]], 1);
            check_unset(&[&[taker], &[setter]], 0);
            check_good(&[&[setter, taker], &[setter, taker]]);
        }
    }
}

/// The bytes of a program of two threads and two locations, and records behind it.
fn after_program(records: &[[u8; 12]]) -> (u8, usize) {
    number_and_offset(&[&[4, 0, 1, 0, 1, 0, 2, 2], &records.concat()[..]].concat())
}

fn record(thread: u8, fields: [u8; 3], word: u8) -> [u8; 12] {
    let [operation, location, register] = fields;
    [
        8, 0, 3, 0, thread, operation, location, register, word, 0, 0, 0,
    ]
}

/// Of two faults in one record, 10 is the last.
#[test]
fn all_other_numbers_come_before() {
    let unset = record(0, [2, 0, 1], 0);
    assert_eq!(after_program(&[unset]), (10, 8));
    let fence = record(0, [8, 0, 0], 0);
    let full = [fence; 16];
    assert_eq!(after_program(&[&full[..], &[unset]].concat()), (7, 200));
    assert_eq!(after_program(&[&full[..15], &[unset]].concat()), (10, 188));
    assert_eq!(after_program(&[record(1, [8, 0, 0], 0), unset]), (6, 20));
    assert_eq!(after_program(&[record(0, [2, 0, 1], 9)]), (8, 8));
    assert_eq!(after_program(&[record(0, [2, 2, 1], 0)]), (5, 8));
    assert_eq!(after_program(&[record(0, [9, 0, 4], 0)]), (5, 8));
    let mut odd = unset;
    odd[0] = 9;
    assert_eq!(after_program(&[odd]), (3, 8));
    odd = unset;
    odd[2] = 7;
    assert_eq!(after_program(&[odd]), (2, 8));
    let bytes = [&[4, 0, 1, 0, 1, 0, 2, 2], &unset[..11]].concat();
    assert_eq!(number_and_offset(&bytes), (1, 8));
    let want = [5, 0, 4, 0, 0, 0, 0, 0, 0];
    let bytes = [&[4, 0, 1, 0, 1, 0, 2, 2], &want[..], &unset].concat();
    assert_eq!(number_and_offset(&bytes), (4, 17));
    assert_eq!(number_and_offset(&unset), (4, 0));
}

/// Of two faulty records the first one decides.
#[test]
fn faults_of_other_records() {
    let unset = record(0, [9, 0, 1], 7);
    let unused_set = record(0, [8, 0, 4], 0);
    assert_eq!(after_program(&[unset, unset]), (10, 8));
    assert_eq!(after_program(&[unset, unused_set]), (10, 8));
    assert_eq!(after_program(&[unused_set, unset]), (8, 8));
    // The faulty one sets nothing: it is not read past.
    assert_eq!(after_program(&[unset, record(0, [2, 0, 1], 0)]), (10, 8));
}

/// In memory: what stood before and set the register is changed, or the instruction is.
#[test]
fn a_case_in_memory() {
    let good = program(&[&[load(X, 1), STORE]]);
    assert!(fits(&good));
    let refused = |change: fn(&mut Case)| {
        let mut case = good.clone();
        change(&mut case);
        let mut lent = [0xA5; 32];
        assert_eq!(write(&case, &mut lent), (32, 0));
        assert_eq!(lent, [0xA5; 32]);
        assert_eq!((judge(&case).number, start(&case).number), (32, 32));
    };
    refused(|case| case.code[0].operation = 5);
    refused(|case| case.code[0].operation = 2);
    refused(|case| case.code[0].operation = 9);
    refused(|case| case.code[0].register = 0);
    refused(|case| case.code[1].register = 2);
    refused(|case| case.code.swap(0, 1));
    let mut case = good.clone();
    case.code[0].operation = 4;
    case.code[1].operation = 9;
    assert!(fits(&case));
}
