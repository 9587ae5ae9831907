//! Where persistent words come from: told of programs by hand, and machines whose words come from nowhere.

use super::engines::check_broken;
use super::{sentences, MOST};
use crate::judge::machine::effects::advance;
use crate::judge::whole::confirm::{confirm, WRITTEN_OUT};
use crate::judge::whole::engine::{Engine, OURS};
use crate::judge::whole::program::{Origin, Program};
use crate::judge::whole::sentences::ORIGIN;
use crate::tests::by_hand::{at, compare, exchange, load, program, store, with_five, X, Y};

#[test]
fn what_a_program_tells_of_a_word() {
    let first = [store(X, 1), load(X, 0), at(2, Y, 0)];
    let second = [exchange(Y, 1, 7), compare(X, 1, 8)];
    let program = Program::of(&with_five(&[&first, &second]));
    let origins = |at: usize, words: &[u32]| -> Vec<Option<Origin>> {
        words.iter().map(|&word| program.origin(at, word)).collect()
    };
    let (own, written) = (Some(Origin::First), Some(Origin::Written));
    assert_eq!(origins(0, &[5, 1, 8]), [own, written, written]);
    // No register is stored at x: neither y's first content nor y's word can be there.
    assert_eq!(origins(0, &[0, 7, 9]), [None; 3]);
    assert_eq!(origins(1, &[0, 7]), [own, written]);
    // x's first content and words, by the register; and one that is nowhere.
    assert_eq!(origins(1, &[5, 1, 8]), [Some(Origin::Carried); 3]);
    assert_eq!(origins(1, &[9]), [None]);
}

/// Of the states of a load of x, which holds 5, and a store of that at y: y holds it in the last one.
#[test]
fn words_are_counted_by_where_they_come_from() {
    let case = with_five(&[&[load(X, 0), at(2, Y, 0), store(X, 1)]]);
    let found = confirm(&OURS, &Program::of(&case), MOST);
    assert!(sentences(&found).is_empty());
    assert_eq!(found.accounted, found.states);
    assert_eq!(
        found.first + found.written + found.carried,
        2 * found.states
    );
    assert!(found.written > 0 && found.carried > 0 && found.first > found.states);
}

/// Where x would hold 1, it holds that word.
fn astray<const WORD: u32>() -> Engine {
    Engine {
        advance: |case, state, step| {
            advance(case, state, step);
            if state.words[0] == 1 {
                state.words[0] = WORD;
            }
        },
        ..OURS
    }
}

/// On the way x holds 9; at the end all is well.
#[test]
fn a_word_from_nowhere() {
    check_broken(astray::<9>(), &[&[store(X, 1), store(X, 2)]], &[ORIGIN]);
}

/// The 3 that is to be stored at y is at x on the way: that is no word of x's, unless a register is stored there.
#[test]
fn a_word_of_another_location() {
    let stores = [store(X, 1), store(X, 2), store(Y, 3)];
    check_broken(astray::<3>(), &[&stores], &[ORIGIN]);
    let with_register = [load(Y, 0), at(2, X, 0), stores[0], stores[1], stores[2]];
    let program = Program::of(&program(&[&with_register]));
    assert!(sentences(&confirm(&astray::<3>(), &program, MOST)).is_empty());
}

/// What number 10 is for: y gets a 0 that nobody wrote.
#[test]
fn a_store_from_an_unset_register() {
    let mut case = with_five(&[&[at(2, Y, 0)]]);
    case.first[1] = 6;
    let found = confirm(&OURS, &Program::of(&case), MOST);
    assert_eq!(sentences(&found), [ORIGIN, WRITTEN_OUT]);
}
