//! The second judge's answer to a frame of cases, and its line.

use super::frame::{slot, Frame};
use crate::judge::case::Case;
use crate::judge::reading::{read, Reading};
use crate::judge::writing::write;
use crate::streams::wire::{push_buffer, UNTOUCHED};

pub struct Answer {
    pub reading: Reading,
    /// The part of the input from the faulty record on; nothing where all was read.
    pub unread: Vec<u8>,
    /// The case handed out, with the frame's field changed.
    pub changed: Case,
    pub number: u8,
    pub length: usize,
    pub lent: Vec<u8>,
}

pub fn answer(frame: &Frame) -> Answer {
    let reading = read(&frame.input);
    let mut changed = reading.case.clone();
    if let Some(mut field) = slot(&mut changed, frame.field) {
        field.set(frame.value);
    }
    let mut lent = vec![UNTOUCHED; frame.room as usize];
    let (number, length) = write(&changed, &mut lent);
    Answer {
        unread: frame.input[reading.offset..].to_vec(),
        reading,
        changed,
        number,
        length,
        lent,
    }
}

impl Answer {
    pub fn line(&self) -> String {
        let read = &self.reading;
        let mut line = format!("{} {} {} ", read.number, read.offset, self.unread.len());
        push_buffer(&mut line, &self.unread);
        line += &format!(" {} {} ", self.number, self.length);
        push_buffer(&mut line, &self.lent);
        line.push('\n');
        line
    }
}
