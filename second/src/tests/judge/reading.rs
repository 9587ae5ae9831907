//! Hand-made byte strings with their numbers, and the form of a case beside reading back.

use crate::judge::case::Case;
use crate::judge::form::fits;
use crate::judge::reading::read;
use crate::judge::writing::{encode, write};
use crate::streams::cases::answer::answer;
use crate::streams::cases::generate::{frames, valid::ROW};

fn number_and_offset(bytes: &[u8]) -> (u8, usize) {
    let reading = read(bytes);
    if reading.number != 0 {
        assert_eq!(reading.case, Case::empty());
    }
    (reading.number, reading.offset)
}

/// A program of two threads and three locations, then these bytes.
fn after_program(rest: &[u8]) -> (u8, usize) {
    let mut bytes = vec![4, 0, 1, 0, 1, 0, 2, 3];
    bytes.extend_from_slice(rest);
    number_and_offset(&bytes)
}

#[test]
fn the_row_reads_and_is_written_again() {
    let reading = read(&ROW);
    assert_eq!((reading.number, reading.offset), (0, 50));
    let case = reading.case;
    assert_eq!(
        (case.threads, case.locations, case.counts),
        (1, 2, [2, 0, 0, 0])
    );
    assert_eq!((case.code[0].operation, case.code[0].word), (1, 500));
    assert_eq!((case.code[1].location, case.code[1].word), (1, 1));
    assert_eq!(
        (&case.wanted[..3], &case.want[..3]),
        (&[true, true, false][..], &[0, 1, 0][..])
    );
    let mut lent = [0xA5; 52];
    assert_eq!(write(&case, &mut lent), (0, 50));
    assert_eq!((&lent[..50], &lent[50..]), (&ROW[..], &[0xA5; 2][..]));
    let mut short = [0xA5; 49];
    assert_eq!(write(&case, &mut short), (31, 0));
    assert_eq!(short, [0xA5; 49]);
}

#[test]
fn opening_faults() {
    assert_eq!(number_and_offset(&[]), (1, 0));
    assert_eq!(number_and_offset(&[4, 0, 1]), (1, 0));
    assert_eq!(number_and_offset(&[4, 0, 1, 0]), (1, 0));
    assert_eq!(number_and_offset(&[9, 9, 7, 0]), (2, 0));
    assert_eq!(number_and_offset(&[9, 9, 1, 0]), (3, 0));
    assert_eq!(number_and_offset(&[2, 0, 5, 0, 0, 0]), (4, 0));
    assert_eq!(number_and_offset(&[2, 0, 5, 0, 0]), (1, 0));
    assert_eq!(number_and_offset(&[4, 0, 1, 0, 1, 1, 1, 1]), (5, 0));
    assert_eq!(after_program(&[]), (0, 8));
    assert_eq!(after_program(&[0]), (1, 8));
    assert_eq!(after_program(&[4, 0, 1, 0, 1, 0, 2, 3]), (4, 8));
    assert_eq!(after_program(&[4, 0, 0, 1, 1, 0, 2, 3]), (2, 8));
}

#[test]
fn words_and_passed_counts() {
    assert_eq!(after_program(&[5, 0, 2, 0, 2, 1, 0, 0, 0]), (0, 17));
    assert_eq!(after_program(&[5, 0, 2, 0, 3, 0, 0, 0, 0]), (5, 8));
    assert_eq!(after_program(&[5, 0, 2, 0, 2, 0, 0, 0, 0]), (8, 8));
    assert_eq!(after_program(&[5, 0, 4, 0, 2, 0, 0, 0, 0]), (0, 17));
    let twice = [5, 0, 4, 0, 2, 0, 0, 0, 0].repeat(2);
    assert_eq!(after_program(&twice), (6, 17));
    assert_eq!(after_program(&[2, 0, 5, 0, 0, 1]), (5, 8));
    assert_eq!(after_program(&[2, 0, 5, 0, 0, 0]), (8, 8));
    assert_eq!(after_program(&[2, 0, 5, 0, 2, 0]), (5, 8));
}

#[test]
fn instructions() {
    let one = [8, 0, 3, 0, 1, 7, 0, 0, 0, 0, 0, 0];
    assert_eq!(after_program(&one), (0, 20));
    assert_eq!(after_program(&one.repeat(16)), (0, 200));
    assert_eq!(after_program(&one.repeat(17)), (7, 200));
    let falling = [one, [8, 0, 3, 0, 0, 7, 0, 0, 0, 0, 0, 0]].concat();
    assert_eq!(after_program(&falling), (6, 20));
    assert_eq!(after_program(&[8, 0, 3, 0, 1, 7, 9, 0, 0, 0, 0, 0]), (8, 8));
    assert_eq!(after_program(&[8, 0, 3, 0, 1, 5, 3, 0, 0, 0, 0, 0]), (5, 8));
    assert_eq!(after_program(&[8, 0, 3, 0, 1, 5, 2, 0, 0, 0, 0, 1]), (8, 8));
    assert_eq!(after_program(&[8, 0, 3, 0, 1, 3, 2, 4, 0, 0, 0, 1]), (5, 8));
    let behind_load = |compare: [u8; 12]| {
        let load = [8, 0, 3, 0, 1, 3, 0, compare[7], 0, 0, 0, 0];
        after_program(&[load, compare].concat())
    };
    assert_eq!(behind_load([8, 0, 3, 0, 1, 9, 2, 3, 9, 9, 9, 9]), (0, 32));
    assert_eq!(behind_load([8, 0, 3, 0, 1, 9, 0, 0, 0, 0, 0, 0]), (0, 32));
    assert_eq!(after_program(&[8, 0, 3, 0, 1, 9, 3, 3, 9, 9, 9, 9]), (5, 8));
    assert_eq!(after_program(&[8, 0, 3, 0, 1, 9, 2, 4, 9, 9, 9, 9]), (5, 8));
    assert_eq!(after_program(&[8, 0, 3, 0, 2, 9, 2, 3, 9, 9, 9, 9]), (5, 8));
    assert_eq!(
        after_program(&[8, 0, 3, 0, 1, 10, 0, 0, 0, 0, 0, 0]),
        (5, 8)
    );
    assert_eq!(after_program(&[8, 0, 3, 0, 1, 0, 0, 0, 0, 0, 0, 0]), (5, 8));
}

#[test]
fn steps() {
    let one = [4, 0, 6, 0, 1, 1, 15, 0];
    assert_eq!(after_program(&one), (0, 16));
    assert_eq!(after_program(&one.repeat(192)), (0, 1544));
    assert_eq!(after_program(&one.repeat(193)), (9, 1544));
    assert_eq!(after_program(&[4, 0, 6, 0, 1, 1, 16, 0]), (5, 8));
    assert_eq!(after_program(&[4, 0, 6, 0, 2, 0, 0, 0]), (5, 8));
    assert_eq!(after_program(&[4, 0, 6, 0, 2, 2, 0, 2]), (8, 8));
    assert_eq!(after_program(&[4, 0, 6, 0, 2, 2, 0, 3]), (5, 8));
    assert_eq!(after_program(&[4, 0, 6, 0, 0, 0, 8, 0]), (8, 8));
}

/// The form alone tells what writing and reading back would tell.
#[test]
fn form_agrees_with_reading_back() {
    let mut all = Vec::new();
    let kept = frames(7, 30000, &mut |part| {
        all.extend(part);
        Ok(())
    });
    assert!(kept.is_ok() && all.len() >= 30000);
    for frame in all {
        let answer = answer(&frame);
        let back = read(&encode(&answer.changed));
        let same = back.number == 0 && back.case == answer.changed;
        assert_eq!(fits(&answer.changed), same);
        if answer.reading.number == 0 {
            assert_eq!(encode(&answer.reading.case), frame.input);
        }
    }
}
