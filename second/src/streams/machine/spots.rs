//! Where the blockers of each rule can stand, and how often they do, by job.

use super::answer::Answer;
use super::frame::{Job, Trial};
use crate::judge::machine::blocker::Among;
use crate::judge::machine::judge::Verdict;
use crate::judge::machine::rules::*;
use crate::streams::sizes::{INSTRUCTIONS, LOCATIONS, THREADS};
use crate::streams::tally::{row, Row};

/// The rules that name a blocker.
const NAMING: [u8; 5] = [
    BUFFER_NOT_EMPTY,
    MARKER_BEFORE_FENCE,
    BARRED,
    QUEUE_NOT_EMPTY,
    MARKER_BEFORE_SFENCE,
];

#[derive(Clone, Copy, PartialEq, Eq)]
pub enum Seat {
    /// At that position of a buffer, or first in a queue.
    At(u8),
    /// In a queue, with something before it and something behind it.
    Between,
    /// In a queue, with something before it and nothing behind it.
    Last,
}

/// A rule, the buffer or queue of its blocker, and where it stands in there.
#[derive(Clone, Copy, PartialEq, Eq)]
pub struct Spot {
    pub rule: u8,
    among: Among,
    pub which: u8,
    pub seat: Seat,
}

/// The last position of a buffer but one.
pub const LAST_BAR: u8 = INSTRUCTIONS - 2;

/// All that there are: a bar has the flush-opt behind it, and the oldest entry is at position 0.
pub fn spots() -> Vec<Spot> {
    let bars: Vec<Seat> = (0..=LAST_BAR).map(Seat::At).collect();
    let markers = [Seat::At(0), Seat::Between, Seat::Last];
    let mut spots = Vec::new();
    for rule in NAMING {
        let (among, count, seats) = match rule {
            BUFFER_NOT_EMPTY => (Among::Buffers, THREADS, &markers[..1]),
            BARRED => (Among::Buffers, THREADS, &bars[..]),
            QUEUE_NOT_EMPTY => (Among::Queues, LOCATIONS, &markers[..1]),
            _ => (Among::Queues, LOCATIONS, &markers[..]),
        };
        for which in 0..count {
            let at = |&seat: &Seat| Spot {
                rule,
                among,
                which,
                seat,
            };
            spots.extend(seats.iter().map(at));
        }
    }
    spots
}

impl Spot {
    fn of(verdict: &Verdict) -> Option<Spot> {
        let blocker = verdict.blocker?;
        let behind = match blocker.among {
            Among::Queues if blocker.position > 0 => {
                let queue = &verdict.state.queues[usize::from(blocker.which)];
                queue.count.checked_sub(blocker.position + 1)
            }
            _ => None,
        };
        let seat = match behind {
            Some(0) => Seat::Last,
            Some(_) => Seat::Between,
            None => Seat::At(blocker.position),
        };
        Some(Spot {
            rule: verdict.number,
            among: blocker.among,
            which: blocker.which,
            seat,
        })
    }

    fn name(&self) -> String {
        let (rule, row) = (self.rule, format!("{}{}", self.among, self.which));
        match self.seat {
            Seat::At(position) => format!("{rule} at {row}.{position}"),
            Seat::Between => format!("{rule} in {row}, between others"),
            Seat::Last => format!("{rule} in {row}, behind others"),
        }
    }
}

pub struct SpotCounts {
    /// With the frames of job 0, 1 and 2.
    spots: Vec<(Spot, [u64; 3])>,
}

/// By construction there are so many frames of each job for each spot.
pub const BY_JOB: [usize; 3] = [8, 4, 10];

impl SpotCounts {
    pub fn new() -> SpotCounts {
        SpotCounts {
            spots: spots().into_iter().map(|spot| (spot, [0; 3])).collect(),
        }
    }

    /// False where a blocker is missing or its rule cannot name it.
    pub fn take(&mut self, trial: &Trial, answer: &Answer) -> bool {
        let spot = match Spot::of(&answer.verdict) {
            Some(spot) => spot,
            None => return !NAMING.contains(&answer.verdict.number),
        };
        let job = match trial.job {
            Job::Bytes => 0,
            Job::Case => 1,
            Job::Step(..) => 2,
            Job::Start => return false,
        };
        let found = self.spots.iter_mut().find(|(known, _)| *known == spot);
        found.map_or(false, |(_, counts)| {
            counts[job] += 1;
            true
        })
    }

    pub fn rows(&self) -> Vec<Row> {
        let all = self.spots.iter().map(|(spot, counts)| {
            let count: u64 = counts.iter().sum();
            row(&spot.name(), count, 20)
        });
        let mut rows: Vec<Row> = all.collect();
        for (job, least) in BY_JOB.into_iter().enumerate() {
            let enough = |(_, counts): &&(Spot, [u64; 3])| counts[job] >= least as u64;
            let count = self.spots.iter().filter(enough).count() as u64;
            let name = format!("blockers' places, {least} by job {job}");
            rows.push(row(&name, count, self.spots.len() as u64));
        }
        rows
    }
}
