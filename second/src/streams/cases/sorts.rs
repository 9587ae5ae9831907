//! Sorts of frames of cases that are told by the frame and its answer.

use super::answer::Answer;
use super::fields;
use super::frame::{Frame, MOST_INPUT};
use crate::judge::case::{MOST_STEPS, MOST_THREADS, OWN_LINES, TOLD_LINES};
use crate::judge::form::fits;
use crate::judge::machine::rules::COMPARE;
use crate::judge::reading::read;
use crate::judge::refusal::UNSET_REGISTER;
use crate::judge::writing::encode;
use crate::streams::sizes::*;
use crate::streams::tally::{sort, Sort};
use crate::streams::wire::MOST_ROOM;
use std::ops::Range;

/// Accepted and written again as it was read.
pub fn rewritten(frame: &Frame, answer: &Answer) -> bool {
    answer.reading.number == 0 && !changes(frame)
}

pub fn changes(frame: &Frame) -> bool {
    (1..fields::END).contains(&frame.field)
}

fn length_in(frame: &Frame, answer: &Answer, least: usize, most: usize) -> bool {
    rewritten(frame, answer) && (least..=most).contains(&frame.input.len())
}

/// As many bytes from one byte earlier on are others.
fn shows_its_place(input: &[u8], offset: usize) -> bool {
    let within = (1..input.len()).contains(&offset);
    within && input[offset - 1..input.len() - 1] != input[offset..]
}

pub const SORTS: [Sort<fn(&Frame, &Answer) -> bool>; 67] = [
    sort("written: 0", 500, |_, a| a.number == 0),
    sort("written: 31", 500, |_, a| a.number == 31),
    sort("written: 32", 500, |_, a| a.number == 32),
    sort("field changed: 32", 500, |f, a| {
        changes(f) && a.number == 32
    }),
    sort("field changed: readable", 500, |f, a| {
        changes(f) && a.changed != a.reading.case && a.number != 32
    }),
    sort("field set to what it holds", 500, |f, a| {
        changes(f) && a.changed == a.reading.case
    }),
    sort("field of the empty case changed", 100, |f, a| {
        changes(f) && a.reading.number != 0
    }),
    sort("field beyond all fields", 500, |f, _| {
        f.field >= fields::END
    }),
    sort("wanted set, word 0, readable", 20, |f, a| {
        let word = at(f, fields::WANTED..fields::WANTS).map(|at| a.changed.want[at]);
        word == Some(0) && f.value != 0 && a.changed != a.reading.case && a.number == 0
    }),
    sort("want word where not wanted", 20, |f, a| {
        let wanted = at(f, fields::WANTS..fields::PASSED).map(|at| a.changed.wanted[at]);
        wanted == Some(false) && f.value != 0
    }),
    sort("version 1 to 2, readable", 20, |f, a| {
        of_version(f, a, OWN_LINES) && a.changed.version == TOLD_LINES && fits(&a.changed)
    }),
    sort("version 2 to 1, readable", 30, |f, a| {
        of_version(f, a, TOLD_LINES) && a.changed.version == OWN_LINES && fits(&a.changed)
    }),
    sort("version 2 to 1: 32", 20, |f, a| {
        of_version(f, a, TOLD_LINES) && a.changed.version == OWN_LINES && a.number == 32
    }),
    sort("version to no version: 32", 20, |f, a| {
        f.field == fields::VERSION && !(1..=2).contains(&a.changed.version) && a.number == 32
    }),
    sort("number of lines changed: 32", 30, |f, a| {
        f.field == fields::LINES && a.changed != a.reading.case && a.number == 32
    }),
    sort("line changed, readable", 30, |f, a| {
        of_line(f, a, true) && a.changed != a.reading.case && fits(&a.changed)
    }),
    sort("line changed, version 1: 32", 30, |f, a| {
        of_line(f, a, true) && a.changed.version == OWN_LINES && a.number == 32
    }),
    sort("line changed, version 2: 32", 30, |f, a| {
        of_line(f, a, true) && a.changed.version == TOLD_LINES && a.number == 32
    }),
    sort("line behind the locations: 32", 30, |f, a| {
        of_line(f, a, false) && a.changed != a.reading.case && a.number == 32
    }),
    sort("operation changed to 9, readable", 20, |f, a| {
        operation_of(f, a).map_or(false, |new| new == COMPARE) && fits(&a.changed)
    }),
    sort("operation changed to 10: 32", 20, |f, a| {
        operation_of(f, a).map_or(false, |new| new > COMPARE) && a.number == 32
    }),
    sort("operation changed from 9, readable", 5, |f, a| {
        operation_of(f, a).is_some() && was_compare(f, a) && fits(&a.changed)
    }),
    sort("operation changed from 9: 32", 20, |f, a| {
        operation_of(f, a).is_some() && was_compare(f, a) && a.number == 32
    }),
    sort("field changed: 32, its file 10", 200, |f, a| {
        changes(f) && a.number == 32 && read(&encode(&a.changed)).number == UNSET_REGISTER
    }),
    sort("a register changed, readable", 30, |f, a| {
        let of_register = of_code(f).map_or(false, |(_, part)| part == 2);
        of_register && a.changed != a.reading.case && fits(&a.changed)
    }),
    sort("accepted, a compare", 200, |f, a| {
        let mut code = a.reading.case.code.iter();
        rewritten(f, a) && code.any(|one| one.operation == COMPARE)
    }),
    sort("5 for operation 10", 20, |_, a| out_of_range(a, 10)),
    sort("5 for a field of a compare", 40, |_, a| {
        out_of_range(a, COMPARE)
    }),
    sort("accepted, 8 bytes", 5, |f, a| length_in(f, a, 8, 8)),
    sort("accepted, 9 to 99 bytes", 100, |f, a| {
        length_in(f, a, 9, 99)
    }),
    sort("accepted, 100 to 499 bytes", 100, |f, a| {
        length_in(f, a, 100, 499)
    }),
    sort("accepted, 500 bytes and more", 100, |f, a| {
        length_in(f, a, 500, LONGEST_OWN - 1)
    }),
    sort("accepted, longest of version 1", 5, |f, a| {
        length_in(f, a, LONGEST_OWN, LONGEST_OWN)
    }),
    sort("accepted, longest of version 2", 5, |f, a| {
        length_in(f, a, LONGEST, LONGEST)
    }),
    sort("accepted, all threads full", 100, |f, a| {
        rewritten(f, a) && a.reading.case.counts == [INSTRUCTIONS; MOST_THREADS]
    }),
    sort("accepted, one step below the most", 5, |f, a| {
        rewritten(f, a) && usize::from(a.reading.case.count) + 1 == MOST_STEPS
    }),
    sort("accepted, the most steps", 100, |f, a| {
        rewritten(f, a) && usize::from(a.reading.case.count) == MOST_STEPS
    }),
    sort("room just enough", 100, |f, a| {
        rewritten(f, a) && f.room as usize == f.input.len()
    }),
    sort("room more than enough", 100, |f, a| {
        rewritten(f, a) && f.room as usize > f.input.len()
    }),
    sort("room one byte short", 100, |f, a| {
        rewritten(f, a) && f.room as usize + 1 == f.input.len()
    }),
    sort("room 0", 100, |f, _| f.room == 0),
    sort("room the most", 20, |f, _| f.room == MOST_ROOM),
    sort("input empty", 5, |f, _| f.input.is_empty()),
    sort("input longer than all that is read", 100, |f, _| {
        f.input.len() > LONGEST + LONGEST_RECORD
    }),
    sort("input of 65,536 bytes", 12, |f, _| {
        f.input.len() == MOST_INPUT as usize
    }),
    sort("faulty behind a longest, version 1", 40, |_, a| {
        a.reading.number != 0 && a.reading.offset == LONGEST_OWN
    }),
    sort("faulty behind a longest, version 2", 50, |_, a| {
        a.reading.number != 0 && a.reading.offset == LONGEST
    }),
    sort("header there, whole: 4", 3, |_, a| {
        let told = a.unread.get(..HEAD) == Some(&[LONG_HEADER as u8, 0, 1, 0]);
        a.reading.number == 4 && a.reading.offset == LONGEST && told
    }),
    sort("header there, a byte short: 1", 3, |_, a| {
        let short = a.unread.len() + 1 == LONGEST_RECORD;
        a.reading.number == 1 && a.reading.offset == LONGEST && short
    }),
    sort("refused, nothing unread", 5, |_, a| {
        a.reading.number != 0 && a.unread.is_empty()
    }),
    sort("unread: no more than any room", 5000, |_, a| {
        (1..=MOST_ROOM as usize).contains(&a.unread.len())
    }),
    sort("unread: more than any room", 60, |_, a| {
        a.unread.len() > MOST_ROOM as usize
    }),
    sort("unread part tells its place", 5000, |f, a| {
        shows_its_place(&f.input, a.reading.offset)
    }),
    sort("3 in document 01, now 1", 100, |_, a| now(a, 1)),
    sort("3 in document 01, now 4", 100, |_, a| now(a, 4)),
    sort("3 in document 01, now 5", 100, |_, a| now(a, 5)),
    sort("3 in document 01, now 8", 100, |_, a| now(a, 8)),
    sort("3 in document 01, again 3", 100, |_, a| now(a, 3)),
    sort("5 in document 01, now 3: version 2", 10, |_, a| {
        a.reading.number == 3 && a.unread.get(..6) == Some(&[4, 0, 1, 0, 2, 0])
    }),
    sort("3 for a header of 65,535", 10, |_, a| {
        a.reading.number == 3 && a.unread.get(..HEAD) == Some(&[255, 255, 1, 0])
    }),
    sort("header cut in version 1", 30, |_, a| is_cut(a, OWN_LINES)),
    sort("header cut in version 2", 30, |_, a| is_cut(a, TOLD_LINES)),
    sort("8 for the lines 0, 2", 1, |_, a| {
        a.reading.number == 8 && has_lines(a, &[0, 2])
    }),
    sort("8 for the lines 1, 0", 1, |_, a| {
        a.reading.number == 8 && has_lines(a, &[1, 0])
    }),
    sort("3 for 3 lines of 2 locations", 1, |_, a| {
        let bytes = header(a).filter(|bytes| bytes.len() == 11);
        a.reading.number == 3 && bytes.map_or(false, |bytes| bytes[7] == 2)
    }),
    sort("8 for a line 255", 20, |_, a| {
        let lines = header(a).and_then(|bytes| bytes.get(8..));
        a.reading.number == 8 && lines.map_or(false, |lines| lines.contains(&255))
    }),
    sort("5 for a location that is no line", 8, |f, a| {
        a.reading.number == 5 && names_no_line(f, a)
    }),
];

/// The operation that the frame sets in place of another one.
fn operation_of(frame: &Frame, answer: &Answer) -> Option<u8> {
    let place = place_of(frame)?;
    let [was, new] = [&answer.reading.case, &answer.changed].map(|case| case.code[place].operation);
    (new != was).then_some(new)
}

fn was_compare(frame: &Frame, answer: &Answer) -> bool {
    let code = &answer.reading.case.code;
    place_of(frame).map_or(false, |place| code[place].operation == COMPARE)
}

/// Of the instruction whose operation the frame sets.
fn place_of(frame: &Frame) -> Option<usize> {
    let (place, part) = of_code(frame)?;
    (part == 0).then_some(place)
}

/// Of the instruction that the frame changes, and which of its four fields that is.
fn of_code(frame: &Frame) -> Option<(usize, usize)> {
    let field = at(frame, fields::CODE..fields::WANTED)?;
    Some((field / 4, field % 4))
}

/// The frame's field, counted from the first of these; none where it is no such field.
fn at(frame: &Frame, these: Range<u32>) -> Option<usize> {
    let is_such = these.contains(&frame.field);
    is_such.then(|| (frame.field - these.start) as usize)
}

/// Refused with 5 is an instruction of that operation.
fn out_of_range(answer: &Answer, operation: u8) -> bool {
    let record = answer.unread.get(..12);
    let is_such = |bytes: &[u8]| bytes[..4] == [8, 0, 3, 0] && bytes[5] == operation;
    answer.reading.number == 5 && record.map_or(false, is_such)
}

/// The frame sets the version of a case that was read in that version.
fn of_version(frame: &Frame, answer: &Answer, version: u16) -> bool {
    let reading = &answer.reading;
    frame.field == fields::VERSION && reading.number == 0 && reading.case.version == version
}

/// The frame sets the line of a location that the program has, or of one that it lacks.
fn of_line(frame: &Frame, answer: &Answer, has: bool) -> bool {
    let location = at(frame, fields::LINE..fields::END);
    location.map_or(false, |at| {
        (at < usize::from(answer.changed.locations)) == has
    })
}

/// The whole program record that was refused, if it is one.
fn header(answer: &Answer) -> Option<&[u8]> {
    let bytes = answer
        .unread
        .get(..HEAD)
        .filter(|head| head[2..] == [1, 0])?;
    let length = usize::from(u16::from_le_bytes([bytes[0], bytes[1]]));
    answer.unread.get(..HEAD + length)
}

/// Refused is a program record that begins in that version and is cut.
fn is_cut(answer: &Answer, version: u16) -> bool {
    let begins = answer.unread.get(2..6);
    answer.reading.number == 1 && begins == Some(&[1, 0, version as u8, 0])
}

/// Refused is a program record with just these lines.
fn has_lines(answer: &Answer, lines: &[u8]) -> bool {
    header(answer).and_then(|bytes| bytes.get(8..)) == Some(lines)
}

/// Refused with that number is a program record whose length document 01 did not know.
fn now(answer: &Answer, number: u8) -> bool {
    let told = match answer.unread.get(..HEAD) {
        Some(&[low, high, 1, 0]) => u16::from_le_bytes([low, high]),
        _ => SHORT_HEADER,
    };
    (SHORT_HEADER + 1..=LONG_HEADER).contains(&told) && answer.reading.number == number
}

/// Refused is a persist whose number is that of a location, but of no line.
fn names_no_line(frame: &Frame, answer: &Answer) -> bool {
    let before = read(&frame.input[..answer.reading.offset]).case;
    match answer.unread.get(..8) {
        Some(&[4, 0, 6, 0, _, 2, _, line]) => (before.lines..before.locations).contains(&line),
        _ => false,
    }
}
