//! Demand 3 confirmed for one program, by going through all its states and counting.

use super::engine::Engine;
use super::explore::{Explorer, Visit};
use super::outcome::Outcome;
use super::point::Point;
use super::program::{Origin, Program};
use super::sentences::{Sentence, OF_STATES};
use super::shown;
use crate::judge::case::MOST_LOCATIONS;
use crate::judge::machine::judge::LEGAL;
use crate::judge::machine::rules::STORE_REGISTER;
use crate::judge::machine::state::{Queue, State};
use crate::judge::machine::steps::printed;
use std::collections::BTreeSet;

/// Sentences about the program as a whole, and what keeps it from being gone through.
pub const WEIGHTS: &str = "the full length is the work left at the start";
pub const ANY_THREAD: &str = "any thread that writes a location can be the last";
pub const WRITTEN_OUT: &str = "the run written out ends with the thread's last write";
pub const BEYOND: &str = "all states and runs are counted";

pub struct Fault {
    pub sentence: &'static str,
    pub text: String,
}

#[derive(Default)]
pub struct Found {
    pub states: u64,
    pub steps: u64,
    /// States without a legal step.
    pub ends: u64,
    /// States with writes of two locations in one queue.
    pub shared: u64,
    /// Runs to these, and all runs.
    pub finished_runs: u128,
    pub runs: u128,
    /// Locations in states without a legal step: with several writers; of these, with one alone
    /// whose last write can be there; with a word that stands in another thread's instructions.
    pub contended: u64,
    pub told_apart: u64,
    pub handed_on: u64,
    /// Location and writer: its last write was there at some end; there it could be no other's.
    pub won: BTreeSet<(usize, usize)>,
    pub won_alone: BTreeSet<(usize, usize)>,
    /// What the ends leave.
    pub memories: BTreeSet<[u32; MOST_LOCATIONS]>,
    /// Steps that issue a store from a register, and a compare, by what comes of it.
    pub stored: u64,
    pub succeeded: u64,
    pub failed: u64,
    /// How many compares failed before the ends.
    pub failures: BTreeSet<u8>,
    /// Locations in states without a legal step: a thread that would write there made no write; no thread
    /// made one, though some would.
    pub unmade: u64,
    pub left_alone: u64,
    /// States in which each persistent word has an origin, and the words of all states, by it.
    pub accounted: u64,
    pub first: u64,
    pub written: u64,
    pub carried: u64,
    /// The first of each sentence.
    pub faults: Vec<Fault>,
}

/// Goes through all states; more than `most` are a fault.
pub fn confirm(engine: &Engine, program: &Program, most: usize) -> Found {
    let mut found = Found::default();
    let start = (engine.work)(&program.case, &State::start(&program.case));
    if start != program.full {
        found.blame(WEIGHTS, program, &format!("{start}, not {}", program.full));
    }
    let mut explorer = Explorer::new(engine, &program.case);
    while let Some(visit) = explorer.visit() {
        if explorer.met() > most {
            found.blame(BEYOND, program, &format!("more than {most} states"));
            return found;
        }
        found.count(program, &visit);
        for Sentence { name, broken } in OF_STATES {
            if broken(program, &visit) {
                let run = explorer.run_to(&visit);
                found.blame(name, program, &shown::place(&run, &visit.point));
            }
        }
    }
    if found.runs == u128::MAX {
        found.blame(BEYOND, program, "more runs than a number holds");
    }
    for (at, thread) in program.pairs() {
        found.check_pair(engine, program, at, thread);
    }
    found
}

impl Found {
    /// Said once of a program.
    fn blame(&mut self, sentence: &'static str, program: &Program, what: &str) {
        if self.faults.iter().all(|fault| fault.sentence != sentence) {
            let text = format!("{sentence}: not so of {}: {what}", shown::program(program));
            self.faults.push(Fault { sentence, text });
        }
    }

    fn count(&mut self, program: &Program, visit: &Visit) {
        self.states += 1;
        self.steps += visit.edges.len() as u64;
        self.runs = self.runs.saturating_add(visit.runs);
        self.shared += u64::from(has_shared(&visit.point.state));
        self.stored += visit.issues(STORE_REGISTER);
        self.succeeded += visit.compares(Outcome::Succeeds);
        self.failed += visit.compares(Outcome::Fails);
        self.count_words(&visit.origins(program));
        if visit.is_end() {
            self.ends += 1;
            self.failures.insert(visit.point.failed);
            self.finished_runs = self.finished_runs.saturating_add(visit.runs);
            self.memories.insert(visit.point.state.words);
            for at in 0..program.writers.len() {
                self.count_end(program, visit, at);
            }
        }
    }

    fn count_words(&mut self, origins: &[Option<Origin>]) {
        let of = |origin| origins.iter().filter(|&&one| one == Some(origin)).count() as u64;
        self.accounted += u64::from(origins.iter().all(|origin| origin.is_some()));
        self.first += of(Origin::First);
        self.written += of(Origin::Written);
        self.carried += of(Origin::Carried);
    }

    fn count_end(&mut self, program: &Program, visit: &Visit, at: usize) {
        let winners = visit.winners(program, at);
        self.won.extend(winners.iter().map(|&thread| (at, thread)));
        if let [one] = winners[..] {
            self.won_alone.insert((at, one));
        }
        let (would, made) = (program.writers[at].len(), visit.writers(program, at).len());
        self.unmade += u64::from(made < would);
        self.left_alone += u64::from(made == 0 && would > 0);
        let several = made > 1;
        self.contended += u64::from(several);
        self.told_apart += u64::from(several && winners.len() == 1);
        let word = visit.point.state.words[at];
        let mut others = 0..usize::from(program.case.threads);
        let handed_on = others.any(|thread| {
            !winners.contains(&thread) && program.words(thread).any(|own| own == word)
        });
        self.handed_on += u64::from(handed_on && !winners.is_empty());
    }

    /// The thread's last write for the location is there at some end, and the run written out is
    /// such a run: the judge lets it pass, it has the full length less its failed compares, and it leaves
    /// the words that were carried along.
    fn check_pair(&mut self, engine: &Engine, program: &Program, at: usize, thread: usize) {
        let pair = format!("thread {thread} at location {at}");
        if !self.won.contains(&(at, thread)) {
            self.blame(ANY_THREAD, program, &pair);
        }
        let carried = program.carried(thread);
        let run = &carried.run;
        let mut case = program.case.clone();
        case.set_run(run);
        let verdict = (engine.judge)(&case);
        let length = program.full as usize - carried.failed;
        let passes = (verdict.number, verdict.place) == (LEGAL, length)
            && verdict.state.words == carried.words;
        let end = Point::behind(engine, &program.case, run);
        let fixed = end.and_then(|end| end.fixed[thread][at]);
        if !passes || fixed != Some(verdict.state.words[at]) {
            let text = format!("{pair}, {} {}", verdict.number, verdict.place);
            let text = format!("{text} of '{}', {:?}", printed(run), verdict.state.words);
            self.blame(WRITTEN_OUT, program, &text);
        }
    }
}

/// Writes of two locations stand in some queue.
pub fn has_shared(state: &State) -> bool {
    state.queues.iter().any(|queue| is_shared(queue))
}

/// Writes of two locations stand in it.
pub fn is_shared(queue: &Queue) -> bool {
    let mut writes = queue.used().iter().filter_map(|held| held.location());
    let first = writes.next();
    writes.any(|other| Some(other) != first)
}
