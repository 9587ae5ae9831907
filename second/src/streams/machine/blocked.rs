//! Sorts of frames whose step is blocked, told by the state in which it is illegal.

use super::answer::Answer;
use super::frame::{Job, Trial};
use crate::judge::case::{Case, Step, MOST_LOCATIONS};
use crate::judge::machine::blocker::Blocker;
use crate::judge::machine::effects::advance;
use crate::judge::machine::rules::*;
use crate::judge::machine::state::{Entry, Held, State};
use crate::streams::tally::{sort, Sort};

pub struct Blocked<'a> {
    case: &'a Case,
    /// What was done before the step; nothing, of a single step.
    run: &'a [Step],
    step: &'a Step,
    state: &'a State,
    rule: u8,
    blocker: Blocker,
}

/// In sorts of markers these are the step's thread's, in the way of a fence.
pub const BLOCKED: [Sort<fn(&Blocked) -> bool>; 16] = [
    sort("22: several wait", 100, |b| {
        b.rule == BUFFER_NOT_EMPTY && b.waiting().len() > 1
    }),
    sort("26: several bar", 200, |b| b.bars().len() > 1),
    sort("26: a store bars first", 200, |b| {
        matches!(b.bars()[..], [Entry::Store { .. }, ..])
    }),
    sort("26: a flush bars first", 200, |b| {
        matches!(b.bars()[..], [Entry::Flush(_), ..])
    }),
    sort("26: an sfence bars first", 200, |b| {
        matches!(b.bars()[..], [Entry::Sfence, ..])
    }),
    sort("26: a neighbour's bars first", 100, |b| {
        let bar = b.bars().first().and_then(|bar| bar.location());
        bar.is_some() && bar != b.moved()
    }),
    sort("26: passes a flush-opt of its line", 100, |b| {
        b.rule == BARRED && b.is_own_passed()
    }),
    sort("27: several queued", 200, |b| {
        b.rule == QUEUE_NOT_EMPTY && b.queue().len() > 1
    }),
    sort("27: a marker is first", 100, |b| {
        let is_marker = matches!(b.queue(), [first, ..] if first.thread().is_some());
        b.rule == QUEUE_NOT_EMPTY && is_marker
    }),
    sort("27: a write is first", 100, |b| {
        let is_write = matches!(b.queue(), [first, ..] if first.location().is_some());
        b.rule == QUEUE_NOT_EMPTY && is_write
    }),
    sort("markers in more queues than one", 200, |b| {
        b.markers().iter().any(|&(line, _)| line != b.line())
    }),
    sort("markers behind it in its queue", 200, |b| {
        let own = |marker: &&(usize, usize)| marker.0 == b.line();
        b.markers().iter().filter(own).count() > 1
    }),
    sort("marker, writes in a lower queue", 200, |b| {
        b.lower().iter().any(|held| held.location().is_some())
    }),
    sort("marker, another's in a lower queue", 200, |b| {
        b.lower().iter().any(|held| held.thread().is_some())
    }),
    sort("marker, another's before it", 200, |b| {
        let mut before = b.queue().iter().take(b.blocker.position.into());
        b.is_marker() && before.any(|held| held.thread().is_some())
    }),
    sort("marker, an older in a higher queue", 100, |b| {
        b.markers().len() > 1 && b.is_older_elsewhere()
    }),
];

impl<'a> Blocked<'a> {
    pub fn of(trial: &'a Trial, answer: &'a Answer) -> Option<Blocked<'a>> {
        let (verdict, steps) = (&answer.verdict, &answer.case.steps);
        let blocker = verdict.blocker?;
        let (run, step) = match &trial.job {
            Job::Step(step, _) => (&steps[..0], step),
            _ => (&steps[..verdict.place], &steps[verdict.place]),
        };
        Some(Blocked {
            case: &answer.case,
            run,
            step,
            state: &verdict.state,
            rule: verdict.number,
            blocker,
        })
    }

    fn waiting(&self) -> &[Entry] {
        self.state.buffers[usize::from(self.step.thread)].used()
    }

    /// The location of what is moved.
    fn moved(&self) -> Option<u8> {
        let position = usize::from(self.step.position);
        self.waiting().get(position)?.location()
    }

    /// The entries that bar a flush-opt.
    fn bars(&self) -> Vec<Entry> {
        let line = match self.moved().filter(|_| self.rule == BARRED) {
            Some(location) => self.case.line_of(location),
            None => return Vec::new(),
        };
        let before = &self.waiting()[..self.step.position.into()];
        let barring = before.iter().filter(|&&entry| bars(self.case, entry, line));
        barring.copied().collect()
    }

    /// A flush-opt of the moved one's line stands before the blocker.
    fn is_own_passed(&self) -> bool {
        let line = |location| self.case.line_of(location);
        let own = self.moved().map(line);
        let mut before = self.waiting().iter().take(self.blocker.position.into());
        before.any(|entry| entry.location().map(line) == own)
    }

    fn line(&self) -> usize {
        self.blocker.which.into()
    }

    /// The blocker's, where it stands in one.
    fn queue(&self) -> &[Held] {
        self.state.queues[self.line()].used()
    }

    fn is_marker(&self) -> bool {
        [MARKER_BEFORE_FENCE, MARKER_BEFORE_SFENCE].contains(&self.rule)
    }

    /// Where a fence's thread has its markers.
    fn markers(&self) -> Vec<(usize, usize)> {
        if !self.is_marker() {
            return Vec::new();
        }
        let queues = self.state.queues.iter().enumerate();
        let held = queues.flat_map(|(line, queue)| {
            let held = queue.used().iter().enumerate();
            held.map(move |(position, held)| (line, position, held))
        });
        let own = held.filter(|(.., held)| held.is_marker_of(self.step.thread.into()));
        own.map(|(line, position, _)| (line, position)).collect()
    }

    /// What stands in the queues of lower lines than a marker's.
    fn lower(&self) -> Vec<Held> {
        let lower = match self.is_marker() {
            true => &self.state.queues[..self.line()],
            false => &[],
        };
        lower
            .iter()
            .flat_map(|queue| queue.used().to_vec())
            .collect()
    }

    /// Of a run: the thread's oldest marker is another one.
    fn is_older_elsewhere(&self) -> bool {
        let since = self.since();
        let age = |&(line, position): &(usize, usize)| {
            let queue: &Vec<usize> = &since[line];
            queue.get(position).copied()
        };
        let marker = (self.line(), self.blocker.position.into());
        self.markers().iter().any(|other| age(other) < age(&marker))
    }

    /// By queue, the steps of the run that brought what stands there.
    fn since(&self) -> Vec<Vec<usize>> {
        let mut state = State::start(self.case);
        let mut since = vec![Vec::new(); MOST_LOCATIONS];
        for (index, step) in self.run.iter().enumerate() {
            advance(self.case, &mut state, step);
            for (queue, since) in state.queues.iter().zip(&mut since) {
                match usize::from(queue.count).cmp(&since.len()) {
                    std::cmp::Ordering::Less => drop(since.remove(0)),
                    std::cmp::Ordering::Equal => {}
                    std::cmp::Ordering::Greater => since.push(index),
                }
            }
        }
        since
    }
}
