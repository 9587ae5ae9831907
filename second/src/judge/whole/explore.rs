//! All states that the runs of a program reach, breadth first, each once.

use super::engine::Engine;
use super::outcome::{issued, Outcome};
use super::point::Point;
use super::program::{Origin, Program};
use crate::judge::case::{Case, Step};
use crate::judge::machine::steps::all_steps;
use std::collections::{HashMap, VecDeque};

/// A state that was met.
struct Node {
    /// The length of the first run that met it.
    depth: u32,
    /// How many runs lead to it. All are counted once it is visited, if they have one length.
    runs: u128,
    /// The state before it on the first run that met it, and the step from there.
    came: Option<(usize, Step)>,
}

/// A legal step.
pub struct Edge {
    /// Behind the step: the work left, and the depth by which its state is known.
    pub work: u32,
    pub depth: u32,
    /// Of an issue.
    pub operation: Option<u8>,
    /// Of a compare.
    pub outcome: Option<Outcome>,
}

pub struct Visit {
    place: usize,
    pub point: Point,
    pub depth: u32,
    pub runs: u128,
    pub work: u32,
    pub edges: Vec<Edge>,
}

impl Visit {
    /// No step is legal.
    pub fn is_end(&self) -> bool {
        self.edges.is_empty()
    }

    /// Its legal steps that issue a compare of that outcome.
    pub fn compares(&self, outcome: Outcome) -> u64 {
        let such = |edge: &&Edge| edge.outcome == Some(outcome);
        self.edges.iter().filter(such).count() as u64
    }

    /// Its legal steps that issue that operation.
    pub fn issues(&self, operation: u8) -> u64 {
        let such = |edge: &&Edge| edge.operation == Some(operation);
        self.edges.iter().filter(such).count() as u64
    }

    /// The threads that write the location; where there are compares, that really made a write there.
    pub fn writers(&self, program: &Program, at: usize) -> Vec<usize> {
        let mut threads = program.writers[at].clone();
        let made = |&thread: &usize| self.point.fixed[thread][at].is_some();
        threads.retain(|thread| !program.compares || made(thread));
        threads
    }

    /// Those whose last word for the location stands there.
    pub fn winners(&self, program: &Program, at: usize) -> Vec<usize> {
        let word = Some(self.point.state.words[at]);
        let mut threads = self.writers(program, at);
        threads.retain(|&thread| self.point.fixed[thread][at] == word);
        threads
    }

    /// Of each location's persistent word; none where the program tells of none.
    pub fn origins(&self, program: &Program) -> Vec<Option<Origin>> {
        let words = self.point.state.words.iter().take(program.writers.len());
        let told = words
            .enumerate()
            .map(|(at, &word)| program.origin(at, word));
        told.collect()
    }
}

pub struct Explorer<'a> {
    engine: &'a Engine,
    case: &'a Case,
    /// Every step in range.
    letters: Vec<Step>,
    /// In the order in which they were met.
    nodes: Vec<Node>,
    places: HashMap<Vec<u8>, usize>,
    /// The last ones of the nodes, which are not visited yet.
    waiting: VecDeque<Point>,
}

impl<'a> Explorer<'a> {
    pub fn new(engine: &'a Engine, case: &'a Case) -> Explorer<'a> {
        let start = Point::start(case);
        Explorer {
            engine,
            case,
            letters: all_steps(case),
            nodes: vec![Node {
                depth: 0,
                runs: 1,
                came: None,
            }],
            places: HashMap::from([(start.key(case), 0)]),
            waiting: VecDeque::from([start]),
        }
    }

    /// How many states were met.
    pub fn met(&self) -> usize {
        self.nodes.len()
    }

    /// The next state with all its legal steps; none once all are visited.
    pub fn visit(&mut self) -> Option<Visit> {
        let place = self.nodes.len() - self.waiting.len();
        let point = self.waiting.pop_front()?;
        let is_legal = |step: &Step| (self.engine.check)(self.case, &point.state, step).is_ok();
        let legal: Vec<Step> = self.letters.iter().copied().filter(is_legal).collect();
        let edges = legal.iter().map(|step| self.follow(place, &point, step));
        let edges = edges.collect();
        let Node { depth, runs, .. } = self.nodes[place];
        Some(Visit {
            place,
            depth,
            runs,
            work: (self.engine.work)(self.case, &point.state),
            point,
            edges,
        })
    }

    fn follow(&mut self, place: usize, point: &Point, step: &Step) -> Edge {
        let next = point.after(self.engine, self.case, step);
        let work = (self.engine.work)(self.case, &next.state);
        let Node { depth, runs, .. } = self.nodes[place];
        let new = self.nodes.len();
        let at = *self.places.entry(next.key(self.case)).or_insert(new);
        if at == new {
            self.nodes.push(Node {
                depth: depth + 1,
                runs: 0,
                came: Some((place, *step)),
            });
            self.waiting.push_back(next);
        }
        // A machine with a fault may have circles, in which runs have no end.
        self.nodes[at].runs = self.nodes[at].runs.saturating_add(runs);
        Edge {
            work,
            depth: self.nodes[at].depth,
            operation: issued(self.case, &point.state, step).map(|next| next.operation),
            outcome: Outcome::of(self.case, &point.state, step),
        }
    }

    /// The first run that met the state.
    pub fn run_to(&self, visit: &Visit) -> Vec<Step> {
        let mut run = Vec::new();
        let mut at = visit.place;
        while let Some((before, step)) = self.nodes[at].came {
            run.push(step);
            at = before;
        }
        run.reverse();
        run
    }
}
