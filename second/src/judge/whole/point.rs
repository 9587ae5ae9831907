//! A state on a run, with the word that each thread fixed last for each location on the way, and how many
//! compares failed.

use super::engine::Engine;
use super::outcome::Outcome;
use super::program::{writes, writes_word};
use crate::judge::case::{Case, Step, MOST_LOCATIONS, MOST_THREADS};
use crate::judge::machine::key;
use crate::judge::machine::rules::ISSUE;
use crate::judge::machine::state::State;

#[derive(Clone)]
pub struct Point {
    pub state: State,
    /// By thread and location. It is kept by looking at instructions and registers as they are
    /// issued, never at buffers or, but for whether a compare succeeds, at queues: so it tells what the
    /// machine ought to carry.
    pub fixed: [[Option<u32>; MOST_LOCATIONS]; MOST_THREADS],
    /// Failed compares: runs to one state may differ in them, and then in their length.
    pub failed: u8,
}

impl Point {
    pub fn start(case: &Case) -> Point {
        Point {
            state: State::start(case),
            fixed: [[None; MOST_LOCATIONS]; MOST_THREADS],
            failed: 0,
        }
    }

    /// Behind a legal step.
    pub fn after(&self, engine: &Engine, case: &Case, step: &Step) -> Point {
        let mut next = self.clone();
        match Outcome::of(case, &self.state, step) {
            Some(Outcome::Fails) => next.failed += 1,
            _ if step.code == ISSUE => next.fix(case, step.thread.into()),
            _ => {}
        }
        (engine.advance)(case, &mut next.state, step);
        next
    }

    /// Behind a run from the start; none where a step is not legal.
    pub fn behind(engine: &Engine, case: &Case, run: &[Step]) -> Option<Point> {
        run.iter().try_fold(Point::start(case), |point, step| {
            (engine.check)(case, &point.state, step).ok()?;
            Some(point.after(engine, case, step))
        })
    }

    /// What is issued next is written, if it writes.
    fn fix(&mut self, case: &Case, thread: usize) {
        let next = match self.state.unissued(case, thread).first() {
            Some(next) if writes(next) => next,
            _ => return,
        };
        let word = if writes_word(next) {
            next.word
        } else {
            self.state.registers[thread][usize::from(next.register)]
        };
        self.fixed[thread][usize::from(next.location)] = Some(word);
    }

    /// An instruction is unissued, or an entry waits in a buffer or a queue.
    pub fn has_more(&self, case: &Case) -> bool {
        let state = &self.state;
        let mut threads = 0..usize::from(case.threads);
        threads.any(|thread| !state.unissued(case, thread).is_empty())
            || state.buffers.iter().any(|buffer| buffer.count > 0)
            || state.queues.iter().any(|queue| queue.count > 0)
    }

    /// Bytes that two points share only if they are the same, in all that the program's threads, locations
    /// and lines have.
    pub fn key(&self, case: &Case) -> Vec<u8> {
        let mut key = key::of(case, &self.state);
        key.push(self.failed);
        for fixed in &self.fixed[..usize::from(case.threads)] {
            for word in &fixed[..usize::from(case.locations)] {
                key.push(u8::from(word.is_some()));
                key::put(&mut key, &[word.unwrap_or(0)]);
            }
        }
        key
    }
}
