//! States in memory that fit their case by construction, reachable or not.

use super::junk::{add_ignored, add_junk};
use super::programs::*;
use super::runs::any_step;
use crate::judge::case::{Case, Instruction, Step};
use crate::judge::machine::blocker::Blocker;
use crate::judge::machine::state::{Entry, Held, State, MARKER, QUEUE_ROOM};
use crate::judge::writing::encode;
use crate::streams::layouts;
use crate::streams::machine::frame::{Job, Trial};
use crate::streams::machine::marks::{marked, with_blocker};
use crate::streams::machine::raw;
use crate::streams::random::Random;
use crate::streams::registers::{mend, takes, Registers};
use crate::streams::sizes::{INSTRUCTIONS, LOCATIONS, QUEUED, THREADS};

/// Least and most of what a scene must have: entries waiting and instructions unissued of its
/// thread, entries in the queue of its location's line; the least number of instructions issued of its thread,
/// and the most that any thread has; and how much every queue stays below its limit.
pub struct Need {
    pub threads: (u8, u8),
    pub locations: (u8, u8),
    pub waiting: (u8, u8),
    pub unissued: (u8, u8),
    pub issued: u8,
    pub instructions: u8,
    pub length: (u8, u8),
    pub spare: u8,
}

pub const ANY: Need = Need {
    threads: (1, THREADS),
    locations: (1, LOCATIONS),
    waiting: (0, INSTRUCTIONS),
    unissued: (0, INSTRUCTIONS),
    issued: 0,
    instructions: INSTRUCTIONS,
    length: (0, QUEUED),
    spare: 0,
};

pub struct Scene {
    pub case: Case,
    pub state: State,
    pub thread: usize,
    pub at: u8,
    /// Of the step that is made for the scene, where its maker knows it.
    pub blocker: Option<Blocker>,
}

impl Scene {
    pub fn new(random: &mut Random, need: &Need) -> Scene {
        loop {
            if let Some(scene) = Scene::try_new(random, need) {
                return scene;
            }
        }
    }

    /// Drawn until its case is such a one.
    pub fn of_case(random: &mut Random, need: &Need, such: impl Fn(&Case) -> bool) -> Scene {
        loop {
            let scene = Scene::new(random, need);
            if such(&scene.case) {
                return scene;
            }
        }
    }

    /// None where the sums leave no room for what the line's queue must have.
    fn try_new(random: &mut Random, need: &Need) -> Option<Scene> {
        let threads = usize::from(random.between(need.threads.0, need.threads.1));
        let locations = random.between(need.locations.0, need.locations.1);
        let (thread, at) = (random.below(threads), random.between(0, locations - 1));
        let loads = draw_loads(random, need, threads, thread);
        let to_come: u8 = loads.iter().map(|load| load.waiting + load.unissued).sum();
        let free = QUEUED.checked_sub(to_come + need.spare)?;
        free.checked_sub(need.length.0)?;
        let counts = loads
            .iter()
            .map(|load| random.between(load.unissued + load.issued, need.instructions));
        let counts: Vec<u8> = counts.collect();
        let mut case = program(random, locations, &counts, &EVERY);
        dress(random, &mut case);
        let mut state = State::start(&case);
        for (one, load) in loads.iter().enumerate() {
            state.issued[one] = case.counts[one] - load.unissued;
            state.buffers[one].count = load.waiting;
        }
        for queue in &mut state.queues[..usize::from(case.lines)] {
            let some = random.between(0, free);
            queue.count = random.pick(&[0, free, free.min(1), some]);
        }
        let length = random.between(need.length.0, need.length.1.min(free));
        state.queues[case.line_of(at)].count = length;
        let mut scene = Scene {
            case,
            state,
            thread,
            at,
            blocker: None,
        };
        scene.fill(random);
        Some(scene)
    }

    /// Words, registers, and what stands in the used places, all in range.
    pub fn fill(&mut self, random: &mut Random) {
        let (threads, locations) = (self.case.threads, self.case.locations);
        for word in &mut self.state.words[..usize::from(locations)] {
            *word = super::programs::word(random);
        }
        for register in self.state.registers[..usize::from(threads)]
            .iter_mut()
            .flatten()
        {
            *register = super::programs::word(random);
        }
        for (line, queue) in self.state.queues.iter_mut().enumerate() {
            let own = layouts::on_line(&self.case, line);
            for place in queue.used_mut() {
                *place = random_held(random, &self.case, &own);
            }
        }
        for buffer in &mut self.state.buffers {
            for place in buffer.used_mut() {
                *place = random_entry(random, locations);
            }
        }
    }

    /// The thread's unissued instructions, counted here so that the judge is not asked.
    pub fn unissued(&self, thread: usize) -> u8 {
        self.case.counts[thread].saturating_sub(self.state.issued[thread])
    }

    /// All entries in store buffers and all unissued instructions.
    pub fn to_come(&self) -> u8 {
        let threads = 0..usize::from(self.case.threads);
        threads
            .map(|thread| self.state.buffers[thread].count + self.unissued(thread))
            .sum()
    }

    /// The line of the scene's location.
    pub fn line(&self) -> usize {
        self.case.line_of(self.at)
    }

    /// One of the entries in the queue of that line.
    pub fn any_held(&mut self, random: &mut Random) -> &mut Held {
        let line = self.line();
        let held = self.state.queues[line].used_mut();
        let position = random.below(held.len());
        &mut held[position]
    }

    /// A marker of the scene's thread, anywhere in the queue of the location's line.
    pub fn plant(&mut self, random: &mut Random) -> Blocker {
        let queue = &self.state.queues[self.line()];
        let position = random.below(queue.count.into());
        self.plant_at(position)
    }

    pub fn plant_at(&mut self, position: usize) -> Blocker {
        let line = self.line();
        self.state.queues[line].places[position].mark = MARKER + self.thread as u8;
        Blocker::queued(line, position)
    }

    /// No queue holds a marker of the scene's thread.
    pub fn strip(&mut self) {
        for line in 0..usize::from(self.case.lines) {
            self.strip_first(line, QUEUE_ROOM);
        }
    }

    /// In the place of the thread's markers, among the first so many of a queue, stand writes of the line.
    fn strip_first(&mut self, line: usize, count: usize) {
        let location = layouts::on_line(&self.case, line)[0];
        for held in &mut self.state.queues[line].places[..count] {
            if held.is_marker_of(self.thread) {
                held.mark = location;
            }
        }
    }

    /// No marker of the scene's thread comes before that position of the location's line; behind it stand
    /// those that were drawn.
    pub fn strip_before(&mut self, position: usize) {
        for line in 0..self.line() {
            self.strip_first(line, QUEUE_ROOM);
        }
        self.strip_first(self.line(), position);
    }

    /// The thread's next instruction: one is issued, if it takes a register, and sets it if none did.
    pub fn set_next(&mut self, random: &mut Random, mut instruction: Instruction) {
        let (place, first) = (self.next_place(), Case::places(self.thread).start);
        if takes(instruction.operation) {
            let registers = Registers::behind(&self.case.code[first..place]);
            match registers.or_other(random, instruction.register) {
                Some(register) => instruction.register = register,
                None => {
                    let Instruction {
                        location, register, ..
                    } = instruction;
                    self.case.code[place - 1] = Instruction::new(3, location, register, 0);
                }
            }
        }
        self.case.code[place] = instruction;
        // What follows may have taken a register that the instruction set which stood here.
        mend(random, &mut self.case);
    }

    pub fn next(&self) -> Instruction {
        self.case.code[self.next_place()]
    }

    fn next_place(&self) -> usize {
        Case::places(self.thread).start + usize::from(self.state.issued[self.thread])
    }

    pub fn entries(&mut self) -> &mut [Entry] {
        self.state.buffers[self.thread].used_mut()
    }

    /// The frame of the step; what the state does not use is junk in two frames of three.
    pub fn trial(mut self, random: &mut Random, name: &str, number: u8, step: Step) -> Trial {
        for place in 0..random.pick(&[0, 0, 1, 20]) {
            self.case.steps[place] = any_step(random, &self.case);
            self.case.count = place as u16 + 1;
        }
        let junk = !random.one_in(3);
        if junk {
            add_junk(random, &self.case, &mut self.state);
        }
        let mut state = raw::encode(&self.state);
        if junk {
            add_ignored(random, &mut state);
        }
        let job = Job::Step(step, state);
        let trial = marked(name, number, 0, encode(&self.case), job);
        with_blocker(trial, self.blocker)
    }
}

/// What a thread has to come, no more than its buffer has room for, and the least that it has issued.
struct Load {
    waiting: u8,
    unissued: u8,
    issued: u8,
}

fn draw_loads(random: &mut Random, need: &Need, threads: usize, thread: usize) -> Vec<Load> {
    let most = random.pick(&[1, 3, INSTRUCTIONS / 2, INSTRUCTIONS]);
    (0..threads)
        .map(|one| {
            let (wait, left, issued) = if one == thread {
                (need.waiting, need.unissued, need.issued)
            } else {
                ((0, most), (0, most), 0)
            };
            let room = INSTRUCTIONS - wait.0;
            let most = left.1.min(room).min(need.instructions - issued);
            let unissued = random.between(left.0, most);
            Load {
                waiting: random.between(wait.0, wait.1.min(INSTRUCTIONS - unissued)),
                unissued,
                issued,
            }
        })
        .collect()
}

/// A marker or, twice as often, a write of one of the line's own locations; of any location, if there is no
/// such line.
fn random_held(random: &mut Random, case: &Case, own: &[u8]) -> Held {
    let marker = MARKER + random.between(0, case.threads - 1);
    let any = random.between(0, case.locations - 1);
    let write = random.pick_some(own).unwrap_or(any);
    Held {
        // A marker's word, 0 in a reachable state.
        word: word(random),
        mark: random.pick(&[write, write, marker]),
    }
}

pub fn random_entry(random: &mut Random, locations: u8) -> Entry {
    let location = random.between(0, locations - 1);
    let word = word(random);
    random.pick(&[
        Entry::Store { location, word },
        Entry::Flush(location),
        Entry::FlushOpt(location),
        Entry::Sfence,
    ])
}
