//! A frame of the stream: a question, and the memory that is lent for it.

use crate::judge::remember::{covered, STATE_WORDS};
use crate::streams::machine::frame::MACHINE;
use crate::streams::question::frame::Query;
use crate::streams::wire::read_part;
use std::cmp::Ordering;
use std::io::{self, Read, Write};

/// A frame's first number: the job behind the machine's last.
const REMEMBER: u32 = MACHINE + 5;

#[derive(Clone, Debug, PartialEq, Eq)]
pub struct Loan {
    /// Its budget is one of states.
    pub query: Query,
    /// How many 32-bit words are lent, at the most.
    pub words: u32,
}

/// What says how many states are covered.
#[derive(Clone, Copy, Debug, PartialEq, Eq)]
pub enum Limit {
    Budget,
    Memory,
    /// Both say the same.
    Both,
}

impl Loan {
    pub fn covered(&self) -> u32 {
        covered(self.words, self.query.budget)
    }

    pub fn limit(&self) -> Limit {
        match self.query.budget.cmp(&(self.words / STATE_WORDS)) {
            Ordering::Less => Limit::Budget,
            Ordering::Equal => Limit::Both,
            Ordering::Greater => Limit::Memory,
        }
    }

    pub fn write_to(&self, out: &mut impl Write) -> io::Result<()> {
        self.query.write_as(REMEMBER, out)?;
        out.write_all(&self.words.to_le_bytes())
    }

    /// The next frame; none at the end of the stream.
    pub fn read_from(stream: &mut impl Read) -> io::Result<Option<Loan>> {
        let query = match Query::read_as(REMEMBER, stream)? {
            Some(query) => query,
            None => return Ok(None),
        };
        let words = read_part(stream, 4)?;
        Ok(Some(Loan {
            query,
            words: u32::from_le_bytes([words[0], words[1], words[2], words[3]]),
        }))
    }
}
