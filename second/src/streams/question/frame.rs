//! A frame of the question's stream.

use crate::streams::machine::frame::{MACHINE, MOST_INPUT};
use crate::streams::wire::{bad_frame, read_head, read_part, MOST_ROOM};
use std::io::{self, Read, Write};

/// A frame's first number: the job behind those of the machine's stream.
const QUESTION: u32 = MACHINE + 3;

#[derive(Clone, Debug, PartialEq, Eq)]
pub struct Query {
    pub input: Vec<u8>,
    /// The length of the lent buffer.
    pub room: u32,
    pub budget: u32,
}

impl Query {
    pub fn write_to(&self, out: &mut impl Write) -> io::Result<()> {
        self.write_as(QUESTION, out)
    }

    /// The next frame; none at the end of the stream.
    pub fn read_from(stream: &mut impl Read) -> io::Result<Option<Query>> {
        Query::read_as(QUESTION, stream)
    }

    /// With that first number.
    pub fn write_as(&self, first: u32, out: &mut impl Write) -> io::Result<()> {
        let length = self.input.len() as u32;
        for number in [first, length, self.room, self.budget] {
            out.write_all(&number.to_le_bytes())?;
        }
        out.write_all(&self.input)
    }

    pub fn read_as(first: u32, stream: &mut impl Read) -> io::Result<Option<Query>> {
        let [job, length, room, budget] = match read_head(stream)? {
            Some(head) => head,
            None => return Ok(None),
        };
        if job != first || length > MOST_INPUT || room > MOST_ROOM {
            return Err(bad_frame());
        }
        Ok(Some(Query {
            input: read_part(stream, length as usize)?,
            room,
            budget,
        }))
    }
}
