//! All legal runs of a program, one after the other. A run is a word over the steps in range, and
//! the walk goes through the legal ones as a dictionary does: by their first step, a run before
//! all that begin with it. A walk that remembers has only those to a state that no run before led to.

use super::case::{Case, Step};
use super::machine::effects::advance;
use super::machine::key;
use super::machine::rules::check;
use super::machine::state::State;
use super::machine::steps::all_steps;
use std::collections::HashSet;

pub struct Walk<'a> {
    case: &'a Case,
    /// Every step in range, in the order in which they are tried.
    letters: Vec<Step>,
    /// The run where the walk stands, as places in `letters`.
    word: Vec<usize>,
    /// The states on the way: the start, and the one behind each step of the run.
    states: Vec<State>,
    /// The keys of all states that were met; none where the walk does not remember.
    met: Option<HashSet<Vec<u8>>>,
}

impl<'a> Walk<'a> {
    /// Stands at the empty run.
    pub fn new(case: &'a Case) -> Walk<'a> {
        Walk {
            case,
            letters: all_steps(case),
            word: Vec::new(),
            states: vec![State::start(case)],
            met: None,
        }
    }

    /// The same, but it goes below no state twice.
    pub fn remembering(case: &'a Case) -> Walk<'a> {
        let walk = Walk::new(case);
        let start = key::of(case, walk.state());
        Walk {
            met: Some(HashSet::from([start])),
            ..walk
        }
    }

    /// The state behind the run.
    pub fn state(&self) -> &State {
        &self.states[self.word.len()]
    }

    pub fn run(&self) -> Vec<Step> {
        self.word
            .iter()
            .map(|&letter| self.letters[letter])
            .collect()
    }

    /// Goes on to the next run; false where there is none: it then stands at the empty run again.
    pub fn go_on(&mut self) -> bool {
        let mut goes_on = self.go_from(0);
        while goes_on && self.was_met() {
            // Whatever begins with this run leads to states that were met below the first run to this one.
            goes_on = self.go_from(self.letters.len());
        }
        goes_on
    }

    /// A walk that remembers was at this state before; if it was not, it remembers it.
    fn was_met(&mut self) -> bool {
        let (case, state) = (self.case, &self.states[self.word.len()]);
        let met = self.met.as_mut();
        met.map_or(false, |met| !met.insert(key::of(case, state)))
    }

    /// To the next run, of those that are longer only to one whose next step is from `least` on.
    fn go_from(&mut self, mut least: usize) -> bool {
        loop {
            if let Some(letter) = self.legal_from(least) {
                self.take(letter);
                return true;
            }
            // Nothing more begins with this run: the next one differs in its last step.
            match self.word.pop() {
                Some(last) => least = last + 1,
                None => return false,
            }
            self.states.pop();
        }
    }

    fn legal_from(&self, least: usize) -> Option<usize> {
        let legal = |&letter: &usize| check(self.case, self.state(), &self.letters[letter]).is_ok();
        (least..self.letters.len()).find(legal)
    }

    fn take(&mut self, letter: usize) {
        let mut next = self.state().clone();
        advance(self.case, &mut next, &self.letters[letter]);
        self.word.push(letter);
        self.states.push(next);
    }
}
