//! The first entry in the way of a step, told by where it stands.

use std::fmt::{self, Display, Formatter};

#[derive(Clone, Copy, Debug, PartialEq, Eq)]
pub enum Among {
    /// Store buffers, by thread.
    Buffers,
    /// Queues, by line.
    Queues,
}

/// A few bytes: a walk asks for one at every step that it tries.
#[derive(Clone, Copy, Debug, PartialEq, Eq)]
pub struct Blocker {
    pub among: Among,
    pub which: u8,
    /// 0 is the oldest.
    pub position: u8,
}

impl Blocker {
    pub const fn waiting(thread: usize, position: usize) -> Blocker {
        Blocker {
            among: Among::Buffers,
            which: thread as u8,
            position: position as u8,
        }
    }

    pub const fn queued(line: usize, position: usize) -> Blocker {
        Blocker {
            among: Among::Queues,
            which: line as u8,
            position: position as u8,
        }
    }
}

impl Display for Among {
    fn fmt(&self, out: &mut Formatter) -> fmt::Result {
        out.write_str(match self {
            Among::Buffers => "B",
            Among::Queues => "Q",
        })
    }
}

impl Display for Blocker {
    fn fmt(&self, out: &mut Formatter) -> fmt::Result {
        write!(out, "{}{}.{}", self.among, self.which, self.position)
    }
}

/// Why a step is not taken: a rule or a refusal number and, for some rules, the blocker.
#[derive(Clone, Copy, Debug, PartialEq, Eq)]
pub struct Stop {
    pub number: u8,
    pub blocker: Option<Blocker>,
}

/// A number that names no blocker.
impl From<u8> for Stop {
    fn from(number: u8) -> Stop {
        Stop {
            number,
            blocker: None,
        }
    }
}
