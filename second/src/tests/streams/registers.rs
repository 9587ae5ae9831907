//! Programs mended so that each register is set before it is stored or compared; and counts that may not be too
//! high.

use crate::judge::case::{Case, Instruction};
use crate::judge::form::fits;
use crate::judge::reading::read;
use crate::judge::writing::encode;
use crate::streams::layouts::Layout;
use crate::streams::machine::generate::programs::{add, instruction};
use crate::streams::random::Random;
use crate::streams::registers::{mend, sets, takes, EVERY};
use crate::streams::tally::{amiss, few_of, row};
use crate::tests::by_hand::*;

fn mended(seed: u64, code: &[Instruction]) -> Vec<Instruction> {
    let mut case = program(&[code]);
    mend(&mut Random::new(seed), &mut case);
    case.code[..code.len()].to_vec()
}

/// What may stand there stays; another register that is set takes the place of one that is not; where none is,
/// a store from one becomes a load, and a compare an exchange.
#[test]
fn what_is_mended() {
    let good = [load(X, 1), at(2, Y, 1), compare(X, 1, 7), at(2, X, 1)];
    assert_eq!(mended(1, &good), good);
    let other = [store(X, 1), load(Y, 2), at(2, X, 0), compare(Y, 3, 9)];
    let right = [other[0], other[1], at(2, X, 2), compare(Y, 2, 9)];
    assert_eq!(mended(1, &other), right);
    let none = [SFENCE, at(2, Y, 3), compare(X, 0, 4), at(2, Y, 3)];
    let right = [SFENCE, load(Y, 3), compare(X, 3, 4), at(2, Y, 3)];
    assert_eq!(mended(1, &none), right);
    assert_eq!(mended(1, &[compare(Y, 1, 8)]), [exchange(Y, 1, 8)]);
    for seed in 0..20 {
        let two = [load(X, 0), load(X, 3), at(2, Y, 1)];
        assert!([0, 3].contains(&mended(seed, &two)[2].register));
    }
}

/// Each thread by itself, in whatever it has.
#[test]
fn all_that_is_mended_is_readable() {
    let mut random = Random::new(5);
    let mut taken = 0;
    for _ in 0..500 {
        let mut case = laid_out(&Layout::own(2), &[&[], &[], &[], &[]]);
        for thread in 0..4 {
            for _ in 0..random.below(9) {
                let operation = random.pick(&EVERY);
                let made = instruction(&mut random, operation, 2);
                add(&mut case, thread, made);
            }
        }
        let before = case.clone();
        mend(&mut random, &mut case);
        assert!(fits(&case) && read(&encode(&case)).number == 0);
        assert!(!fits(&before) || case == before);
        taken += case.code.iter().filter(|one| takes(one.operation)).count();
        check_fields(&before, &case);
    }
    assert!(taken > 1000, "{taken}");
}

/// Nothing but registers, and the operations of those that take one.
fn check_fields(before: &Case, after: &Case) {
    for (was, is) in before.code.iter().zip(&after.code) {
        assert_eq!((was.location, was.word), (is.location, is.word));
        assert!(was.operation == is.operation || takes(was.operation) && sets(is.operation));
        assert!(was.register == is.register || takes(was.operation));
    }
}

#[test]
fn counts_that_are_too_low_or_too_high() {
    let few = |count: u64| amiss(&[row("frames of a sort", count, 2).at_most(4)]);
    assert_eq!(few(1), ["frames of a sort: 1, at least 2 wanted"]);
    assert_eq!((few(2), few(4)), (Vec::new(), Vec::new()));
    assert_eq!(few(5), ["frames of a sort: 5, at most 4 wanted"]);
    assert!(amiss(&[row("any number", 1_000_000_u64, 2)]).is_empty());
    assert_eq!((few_of(100), few_of(32_049)), (2, 640));
}
