//! Frames of cases: their fields, their stream and their lines.

use crate::judge::case::Case;
use crate::streams::cases::answer::answer;
use crate::streams::cases::fields;
use crate::streams::cases::frame::{slot, Frame};
use crate::streams::cases::generate::{sketch::Sketch, valid::ROW};
use crate::streams::random::Random;
use crate::streams::sizes::{LONGEST, LONGEST_OWN, LONGEST_RECORD};

/// Where docs/FRAMES.md has them.
#[test]
fn each_part_has_its_fields() {
    let parts = [
        fields::FIRSTS,
        fields::COUNTS,
        fields::CODE,
        fields::WANTED,
        fields::WANTS,
        fields::PASSED,
        fields::COUNT,
        fields::STEPS,
    ];
    assert_eq!(parts, [3, 19, 23, 279, 295, 311, 315, 316]);
    let last = [fields::VERSION, fields::LINES, fields::LINE, fields::END];
    assert_eq!(last, [1084, 1085, 1086, 1102]);
}

/// The file of a case with a record at every place, in either version.
#[test]
fn no_file_is_longer() {
    assert_eq!((LONGEST_RECORD, LONGEST_OWN, LONGEST), (24, 2624, 2640));
    let mut random = Random::new(1);
    for _ in 0..20 {
        let file = Sketch::longest(&mut random).bytes();
        let version = usize::from(file[4]);
        assert_eq!(file.len(), [LONGEST_OWN, LONGEST][version - 1]);
    }
}

#[test]
fn fields_are_all_different() {
    for field in 0..fields::END + 2 {
        let mut changed = Case::empty();
        let there = slot(&mut changed, field).map(|mut found| {
            let other = found.get() ^ 1;
            found.set(other);
            assert_eq!(found.get(), other);
        });
        assert_eq!(there.is_some(), (1..fields::END).contains(&field));
        assert_eq!(there.is_some(), changed != Case::empty());
        for later in field + 1..fields::END {
            let before = slot(&mut Case::empty(), later).map(|found| found.get());
            assert_eq!(slot(&mut changed, later).map(|found| found.get()), before);
        }
    }
}

#[test]
fn frames_come_back_from_their_stream() {
    let frame = Frame {
        input: ROW.to_vec(),
        field: 1,
        value: 258,
        room: 50,
    };
    let mut stream = Vec::new();
    assert!(frame.write_to(&mut stream).is_ok());
    let mut rest = &stream[..];
    assert_eq!(Frame::read_from(&mut rest).ok(), Some(Some(frame.clone())));
    assert_eq!(Frame::read_from(&mut rest).ok(), Some(None));
    assert!(Frame::read_from(&mut &stream[..65]).is_err());
    assert_eq!(answer(&frame).changed.threads, 2);
    assert!(answer(&frame)
        .line()
        .starts_with("0 50 0 - 0 50 0400010001000202"));
}

/// What was not read is told as the input has it, from the faulty record to its last byte.
#[test]
fn the_unread_part_starts_at_the_faulty_record() {
    let line = |input: &[u8]| {
        let frame = Frame {
            input: input.to_vec(),
            field: 0,
            value: 0,
            room: 0,
        };
        answer(&frame).line()
    };
    assert_eq!(line(&ROW), "0 50 0 - 31 0 -\n");
    assert_eq!(line(&[]), "1 0 0 - 31 0 -\n");
    assert_eq!(line(&[4, 0, 1]), "1 0 3 040001 31 0 -\n");
    // The last record, a want, lacks its last byte.
    assert_eq!(line(&ROW[..49]), "1 41 8 0500040001010000 31 0 -\n");
    let behind = [&ROW[..], &[0, 0, 7, 0, 255]].concat();
    assert_eq!(line(&behind), "2 50 5 00000700ff 31 0 -\n");
    let many = [&ROW[..], &[0x5C; 65486]].concat();
    let told = format!("2 50 65486 {} 31 0 -\n", "5c".repeat(65486));
    assert_eq!(line(&many), told);
}
