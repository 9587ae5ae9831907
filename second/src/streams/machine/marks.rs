//! Frames whose answer is known by construction bear a mark in their field number, as in the
//! stream of cases; the value holds the expected number, place and, where it is known, blocker.

use super::frame::{Job, Trial};
use crate::judge::case::{MOST_STEPS, MOST_THREADS};
use crate::judge::machine::blocker::{Among, Blocker};
use crate::judge::machine::judge::Verdict;
use crate::judge::machine::state::QUEUE_ROOM;
use crate::streams::cases::fields;
use crate::streams::cases::marks::Family;
use crate::streams::sizes::{INSTRUCTIONS, LOCATIONS, THREADS};

const FIRST_MARK: u32 = 65536;

/// The number of a mark where the state must fit: 103 or any rule.
pub const FITS: u8 = 0;

/// The last family bears no mark in its frames: they set a count out of range.
pub const BAD_COUNT: usize = FAMILIES.len() - 1;

const fn family(name: &'static str, least: u64) -> Family {
    Family { name, least }
}

/// Of two numbers the first is the expected one; `script`, `step` and `start` are by construction.
pub const FAMILIES: [Family; 142] = [
    family("legal run", 1500),
    family("run: rule 21", 150),
    family("run: rule 22", 150),
    family("run: rule 23", 150),
    family("run: rule 24", 150),
    family("run: rule 25", 150),
    family("run: rule 26", 150),
    family("run: rule 27", 150),
    family("run: rule 28", 150),
    family("run: rule 29", 150),
    family("script: 21", 100),
    family("script: 21, entries waiting", 100),
    family("script: 22", 100),
    family("script: 22+23", 100),
    family("script: 23", 100),
    family("script: 24", 100),
    family("script: 25", 100),
    family("script: 25+26", 100),
    family("script: 25+27", 100),
    family("script: 25+28", 100),
    family("script: 26", 100),
    family("script: 27", 100),
    family("script: 28", 100),
    family("script: 29", 100),
    family("legal: each done at once", 100),
    family("legal: passes other lines", 60),
    family("legal: passes a flush-opt", 60),
    family("legal: flush, other queues", 60),
    family("legal: fence, other's marker", 60),
    family("legal: sfence, other's marker", 60),
    family("legal: fence, marker gone", 60),
    family("legal: exchange, queue filled", 60),
    family("legal: sfence before flush-opt", 60),
    family("legal: empty case", 50),
    family("script: 26, a neighbour's", 100),
    family("script: 27, a neighbour's", 100),
    family("script: 29, a neighbour's gone", 100),
    family("legal: a neighbour's persist", 100),
    family("legal: load past a neighbour's", 100),
    family("legal: fence, neighbour's gone", 100),
    family("legal: compare succeeds", 200),
    family("legal: compare fails", 200),
    family("legal: fails, then succeeds", 200),
    family("legal: two compare one word", 200),
    family("legal: compare past a neighbour's", 200),
    family("script: 29, a compare failed", 200),
    family("script: 22, would succeed", 200),
    family("script: 22, would fail", 200),
    family("script: 23, would succeed", 200),
    family("script: 23, would fail", 200),
    family("script: 22, each place", 48),
    family("script: 23, each place", 576),
    family("script: 26, each place", 720),
    family("script: 27, each place", 192),
    family("script: 28, each place", 576),
    family("row: a blocker by hand", 54),
    family("limit: last position", 40),
    family("limit: last line", 40),
    family("limit: last index", 40),
    family("once 5: a location", 40),
    family("once 3: a told line", 40),
    family("once 7: an instruction", 40),
    family("once 5: a position", 40),
    family("once 9: a step", 40),
    family("reading refused", 500),
    family("step: reading refused", 50),
    family("step: reachable state", 1000),
    family("step: fitting state", 1000),
    family("step: 21", 100),
    family("step: 22", 100),
    family("step: 22+23", 100),
    family("step: 23", 100),
    family("step: 24", 100),
    family("step: 25", 100),
    family("step: 25+26", 100),
    family("step: 25+27", 100),
    family("step: 25+28", 100),
    family("step: 26", 100),
    family("step: 27", 100),
    family("step: 28", 100),
    family("step: 29", 100),
    family("step: legal issue", 100),
    family("step: legal load", 100),
    family("step: legal fence", 100),
    family("step: legal store", 100),
    family("step: legal flush", 100),
    family("step: legal flush-opt", 100),
    family("step: legal passing", 100),
    family("step: legal sfence", 100),
    family("step: legal persist", 100),
    family("step: 26, a neighbour's", 100),
    family("step: 27, a neighbour's", 100),
    family("step: load past a neighbour's", 100),
    family("step: exchange past a neighbour's", 100),
    family("step: compare succeeds", 150),
    family("step: compare fails", 150),
    family("step: compare past a neighbour's", 150),
    family("step: 22, would succeed", 150),
    family("step: 22, would fail", 150),
    family("step: 23, would succeed", 150),
    family("step: 23, would fail", 150),
    family("step: 22, each place", 40),
    family("step: 23, each place", 480),
    family("step: 26, each place", 600),
    family("step: 27, each place", 160),
    family("step: 28, each place", 480),
    family("33 above: lacking thread", 100),
    family("33 above: lacking line", 100),
    family("33 above: location that is no line", 100),
    family("33 above: entry's location", 100),
    family("33 above: marker's thread", 100),
    family("33 above: write's location", 100),
    family("33 above: write of another line", 100),
    family("33 above: issued", 100),
    family("33 above: a buffer's sum", 100),
    family("33 above: a queue's sum", 100),
    family("33 at: last thread", 100),
    family("33 at: last line", 100),
    family("33 at: entry's location", 100),
    family("33 at: sfence names none", 100),
    family("33 at: marker's thread", 100),
    family("33 at: marker of thread 0", 100),
    family("33 at: write's location", 100),
    family("33 at: write of a shared line", 100),
    family("33 at: issued", 100),
    family("33 at: a buffer's sum", 100),
    family("33 at: a queue's sum", 100),
    family("33 at: queues together", 100),
    family("once 33: a buffer's sum", 100),
    family("once 33: a queue's sum", 100),
    family("33+5", 100),
    family("33+8", 100),
    family("33+rule", 100),
    family("5", 100),
    family("8", 100),
    family("5+8", 100),
    family("5+rule", 100),
    family("8+rule", 100),
    family("33: any bytes", 100),
    family("start: case as read", 300),
    family("start: reading refused", 100),
    family("32: a count out of range", 500),
];

/// What a frame must be answered.
pub struct Mark {
    pub family: usize,
    pub number: u8,
    pub place: usize,
    /// None where nothing is said of it.
    pub blocker: Option<Blocker>,
}

fn family_of(name: &str) -> usize {
    let found = FAMILIES.iter().position(|family| family.name == name);
    found.expect("a family is named as in the table")
}

pub fn marked(name: &str, number: u8, place: usize, input: Vec<u8>, job: Job) -> Trial {
    Trial {
        job,
        input,
        field: FIRST_MARK + family_of(name) as u32,
        value: u32::from(number) + 256 * place as u32,
    }
}

/// The value of a mark has the place below this, and the blocker's code above.
const BLOCKER: u32 = 1 << 20;

/// A marked frame whose blocker is known too.
pub fn with_blocker(mut trial: Trial, blocker: Option<Blocker>) -> Trial {
    trial.value += blocker.map_or(0, code) * BLOCKER;
    trial
}

/// The code of no blocker is 0; then come the buffers, then the queues, so many positions each.
const POSITIONS: u32 = QUEUE_ROOM as u32;
const BUFFERS: usize = 1;
const QUEUES: usize = BUFFERS + MOST_THREADS;

fn code(blocker: Blocker) -> u32 {
    let first = match blocker.among {
        Among::Buffers => BUFFERS,
        Among::Queues => QUEUES,
    };
    POSITIONS * (first as u32 + u32::from(blocker.which)) + u32::from(blocker.position)
}

fn blocker_of(code: u32) -> Option<Blocker> {
    let (group, position) = ((code / POSITIONS) as usize, (code % POSITIONS) as usize);
    match group {
        0 => None,
        QUEUES.. => Some(Blocker::queued(group - QUEUES, position)),
        _ => Some(Blocker::waiting(group - BUFFERS, position)),
    }
}

pub fn mark_of(trial: &Trial) -> Option<Mark> {
    if sets_bad_count(trial) {
        return Some(Mark {
            family: BAD_COUNT,
            number: 32,
            place: 0,
            blocker: None,
        });
    }
    let family = trial.field.checked_sub(FIRST_MARK)? as usize;
    FAMILIES.get(family)?;
    Some(Mark {
        family,
        number: (trial.value % 256) as u8,
        place: (trial.value % BLOCKER / 256) as usize,
        blocker: blocker_of(trial.value / BLOCKER),
    })
}

/// Threads, locations, instructions of a thread, steps, the version or lines: whatever the input is, 32.
fn sets_bad_count(trial: &Trial) -> bool {
    let byte = trial.value as u8;
    let bad = match trial.field {
        fields::THREADS => !(1..=THREADS).contains(&byte),
        fields::LOCATIONS | fields::LINES => !(1..=LOCATIONS).contains(&byte),
        fields::COUNT => usize::from(trial.value as u16) > MOST_STEPS,
        fields::VERSION => !(1..=2).contains(&(trial.value as u16)),
        field => (fields::COUNTS..fields::CODE).contains(&field) && byte > INSTRUCTIONS,
    };
    bad && trial.job != Job::Bytes
}

impl Mark {
    pub fn is_met(&self, verdict: &Verdict) -> bool {
        let number = verdict.number;
        let right = match self.number {
            FITS => number == 103 || (21..=29).contains(&number),
            _ => number == self.number,
        };
        let named = self.blocker.is_none() || self.blocker == verdict.blocker;
        right && verdict.place == self.place && named
    }
}
