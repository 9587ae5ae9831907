//! A frame of cases, and the field of a case that a frame changes.

use super::fields;
use crate::judge::case::Case;
use crate::streams::wire::{bad_frame, read_head, read_part, MOST_ROOM};
use std::io::{self, Read, Write};

pub const MOST_INPUT: u32 = 65536;

#[derive(Clone, Debug, PartialEq, Eq)]
pub struct Frame {
    pub input: Vec<u8>,
    pub field: u32,
    pub value: u32,
    pub room: u32,
}

impl Frame {
    pub fn write_to(&self, out: &mut impl Write) -> io::Result<()> {
        let length = self.input.len() as u32;
        for number in [length, self.field, self.value, self.room] {
            out.write_all(&number.to_le_bytes())?;
        }
        out.write_all(&self.input)
    }

    /// The next frame; none at the end of the stream.
    pub fn read_from(stream: &mut impl Read) -> io::Result<Option<Frame>> {
        let [length, field, value, room] = match read_head(stream)? {
            Some(head) => head,
            None => return Ok(None),
        };
        if length > MOST_INPUT || room > MOST_ROOM {
            return Err(bad_frame());
        }
        Ok(Some(Frame {
            input: read_part(stream, length as usize)?,
            field,
            value,
            room,
        }))
    }
}

/// One field of a case, by its width.
pub enum Slot<'a> {
    Flag(&'a mut bool),
    Byte(&'a mut u8),
    Short(&'a mut u16),
    Word(&'a mut u32),
}

impl Slot<'_> {
    pub fn get(&self) -> u32 {
        match self {
            Slot::Flag(flag) => u32::from(**flag),
            Slot::Byte(byte) => u32::from(**byte),
            Slot::Short(short) => u32::from(**short),
            Slot::Word(word) => **word,
        }
    }

    /// Numbers are truncated to the field's width.
    pub fn set(&mut self, value: u32) {
        match self {
            Slot::Flag(flag) => **flag = value != 0,
            Slot::Byte(byte) => **byte = value as u8,
            Slot::Short(short) => **short = value as u16,
            Slot::Word(word) => **word = value,
        }
    }
}

/// The field of that number; none for 0 and behind the last one.
pub fn slot(case: &mut Case, field: u32) -> Option<Slot<'_>> {
    let behind = |first: u32| (field - first) as usize;
    // The last part comes first: each takes what is left from its beginning on.
    let found = match field {
        0 | fields::END.. => return None,
        fields::LINE.. => Slot::Byte(&mut case.line[behind(fields::LINE)]),
        fields::LINES => Slot::Byte(&mut case.lines),
        fields::VERSION => Slot::Short(&mut case.version),
        fields::STEPS.. => step_slot(case, behind(fields::STEPS)),
        fields::COUNT => Slot::Short(&mut case.count),
        fields::PASSED.. => Slot::Byte(&mut case.passed[behind(fields::PASSED)]),
        fields::WANTS.. => Slot::Word(&mut case.want[behind(fields::WANTS)]),
        fields::WANTED.. => Slot::Flag(&mut case.wanted[behind(fields::WANTED)]),
        fields::CODE.. => instruction_slot(case, behind(fields::CODE)),
        fields::COUNTS.. => Slot::Byte(&mut case.counts[behind(fields::COUNTS)]),
        fields::FIRSTS.. => Slot::Word(&mut case.first[behind(fields::FIRSTS)]),
        fields::LOCATIONS => Slot::Byte(&mut case.locations),
        fields::THREADS => Slot::Byte(&mut case.threads),
    };
    Some(found)
}

fn instruction_slot(case: &mut Case, at: usize) -> Slot<'_> {
    let instruction = &mut case.code[at / 4];
    match at % 4 {
        0 => Slot::Byte(&mut instruction.operation),
        1 => Slot::Byte(&mut instruction.location),
        2 => Slot::Byte(&mut instruction.register),
        _ => Slot::Word(&mut instruction.word),
    }
}

fn step_slot(case: &mut Case, at: usize) -> Slot<'_> {
    let step = &mut case.steps[at / 4];
    Slot::Byte(match at % 4 {
        0 => &mut step.thread,
        1 => &mut step.code,
        2 => &mut step.position,
        _ => &mut step.line,
    })
}
