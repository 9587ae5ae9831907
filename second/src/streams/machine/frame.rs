//! A frame of the machine's stream.

use super::raw::STATE_BYTES;
use crate::judge::case::Step;
use crate::streams::wire::{bad_frame, read_head, read_part};
use std::io::{self, Read, Write};

pub const MOST_INPUT: u32 = 8192;
/// What a frame's first number has above its job: no frame of cases begins with so high a number.
pub const MACHINE: u32 = 1 << 31;

const START: u32 = 4;

#[derive(Clone, Debug, PartialEq, Eq)]
pub enum Job {
    /// Job 0: judge the input bytes.
    Bytes,
    /// Job 1: judge the case in memory.
    Case,
    /// Job 2: a single step, given with the bytes of a state.
    Step(Step, Vec<u8>),
    /// Job 4: the start of the case in memory. Job 3 is the question's stream.
    Start,
}

#[derive(Clone, Debug, PartialEq, Eq)]
pub struct Trial {
    pub job: Job,
    pub input: Vec<u8>,
    pub field: u32,
    pub value: u32,
}

impl Trial {
    pub fn write_to(&self, out: &mut impl Write) -> io::Result<()> {
        let job = match self.job {
            Job::Bytes => 0,
            Job::Case => 1,
            Job::Step(..) => 2,
            Job::Start => START,
        };
        let length = self.input.len() as u32;
        for number in [MACHINE + job, length, self.field, self.value] {
            out.write_all(&number.to_le_bytes())?;
        }
        out.write_all(&self.input)?;
        if let Job::Step(step, state) = &self.job {
            out.write_all(&[step.thread, step.code, step.position, step.line])?;
            out.write_all(state)?;
        }
        Ok(())
    }

    /// The next frame; none at the end of the stream.
    pub fn read_from(stream: &mut impl Read) -> io::Result<Option<Trial>> {
        let [first, length, field, value] = match read_head(stream)? {
            Some(head) => head,
            None => return Ok(None),
        };
        if length > MOST_INPUT {
            return Err(bad_frame());
        }
        let input = read_part(stream, length as usize)?;
        let job = match first.checked_sub(MACHINE) {
            Some(0) => Job::Bytes,
            Some(1) => Job::Case,
            Some(2) => read_step(stream)?,
            Some(START) => Job::Start,
            _ => return Err(bad_frame()),
        };
        Ok(Some(Trial {
            job,
            input,
            field,
            value,
        }))
    }
}

/// What stands behind the input of a frame of job 2.
fn read_step(stream: &mut impl Read) -> io::Result<Job> {
    let fields = read_part(stream, 4)?;
    let step = Step {
        thread: fields[0],
        code: fields[1],
        position: fields[2],
        line: fields[3],
    };
    Ok(Job::Step(step, read_part(stream, STATE_BYTES)?))
}
