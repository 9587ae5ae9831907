//! The life of each entry of a run: the steps that issued it, moved it and let it persist. It follows the run and decides nothing.

use super::compares::compared;
use super::state::{Entry, Held};
use super::Story;
use crate::case::{Instruction, Step};

/// Steps are told by their index in the run, from 0.
#[derive(Clone, Debug, PartialEq, Eq)]
pub struct Life {
    pub thread: u8,
    /// The index of its instruction in the thread.
    pub instruction: usize,
    pub kind: Kind,
    /// The cache line whose queue it goes to; a flush and an sfence go to none.
    pub queue: Option<usize>,
    pub issued: usize,
    pub moved: Option<usize>,
    pub persisted: Option<usize>,
}

/// The write of a compare that succeeds is an exchange's: it goes straight to its queue.
#[derive(Clone, Copy, Debug, PartialEq, Eq)]
pub enum Kind {
    Store { at: u8, word: u32 },
    Flush { at: u8 },
    FlushOpt { at: u8 },
    Sfence,
    Exchange { at: u8, word: u32 },
}

impl Kind {
    /// The location by whose line it goes to a queue; a flush and an sfence go to none.
    fn joins(self) -> Option<u8> {
        match self {
            Kind::FlushOpt { at } => Some(at),
            _ => self.write().map(|(at, _)| at),
        }
    }

    /// The location that it writes, and the word that it brings to memory; only writes have them.
    pub fn write(self) -> Option<(u8, u32)> {
        match self {
            Kind::Store { at, word } | Kind::Exchange { at, word } => Some((at, word)),
            _ => None,
        }
    }

    pub fn word(self) -> Option<u32> {
        self.write().map(|(_, word)| word)
    }
}

impl Life {
    /// Whether it waits in its thread's buffer, so many steps behind the start.
    pub fn in_buffer(&self, steps: usize) -> bool {
        self.issued < steps && self.moved.map_or(true, |moved| moved >= steps)
    }

    /// Whether it waits in a queue, so many steps behind the start.
    pub fn in_queue(&self, steps: usize) -> bool {
        self.queue.is_some()
            && self.moved.is_some_and(|moved| moved < steps)
            && self.persisted.map_or(true, |persisted| persisted >= steps)
    }
}

impl Life {
    pub fn is_write_to(&self, at: usize) -> bool {
        self.kind
            .write()
            .is_some_and(|(here, _)| here as usize == at)
    }

    /// The entry that it is in a buffer; an exchange never stands in one.
    fn waiting(&self) -> Option<Entry> {
        match self.kind {
            Kind::Store { at, word } => Some(Entry::Store { at, word }),
            Kind::Flush { at } => Some(Entry::Flush { at }),
            Kind::FlushOpt { at } => Some(Entry::FlushOpt { at }),
            Kind::Sfence => Some(Entry::Sfence),
            Kind::Exchange { .. } => None,
        }
    }

    /// The entry that it is in a queue.
    fn held(&self) -> Held {
        match self.kind.write() {
            Some((at, word)) => Held::Write { at, word },
            None => Held::Marker {
                thread: self.thread,
            },
        }
    }
}

/// Loads, mfences and compares that fail wait nowhere and have no life. The lives come in the order of their issue.
pub fn lives(story: &Story) -> Vec<Life> {
    let mut ledger = Ledger {
        lives: Vec::new(),
        buffers: vec![Vec::new(); story.case.threads.len()],
        queues: vec![Vec::new(); story.case.by_line().len()],
    };
    let legal = story.states.len().saturating_sub(1);
    for (index, step) in story.run.iter().take(legal).enumerate() {
        match *step {
            Step::Issue { thread } => ledger.issue(story, index, thread),
            Step::Move { thread, position } => ledger.move_out(index, thread, position),
            Step::Persist { line } => ledger.persist(index, line),
        }
    }
    ledger.lives
}

/// The lives of one buffer so many steps behind the start, the oldest first, as indices.
pub fn buffer(lives: &[Life], thread: usize, steps: usize) -> Vec<usize> {
    let here = |life: &Life| life.thread as usize == thread && life.in_buffer(steps);
    (0..lives.len()).filter(|&one| here(&lives[one])).collect()
}

/// The lives of one queue so many steps behind the start, the oldest first, as indices.
pub fn queue(lives: &[Life], line: usize, steps: usize) -> Vec<usize> {
    let here = |life: &Life| life.in_queue(steps) && life.queue == Some(line);
    let mut found: Vec<usize> = (0..lives.len()).filter(|&one| here(&lives[one])).collect();
    found.sort_by_key(|&one| lives[one].moved);
    found
}

/// Whether each step finds what it takes in the state before it.
fn has_steps(story: &Story) -> bool {
    let pairs = story.run.iter().zip(story.states.iter());
    let legal = story.states.len().saturating_sub(1);
    pairs.take(legal).all(|(step, before)| match *step {
        Step::Issue { thread } => {
            let code = story.case.threads.get(thread as usize);
            code.is_some_and(|code| before.issued[thread as usize] < code.len())
        }
        Step::Move { thread, position } => {
            let buffer = before.buffers.get(thread as usize);
            buffer.is_some_and(|buffer| (position as usize) < buffer.len())
        }
        Step::Persist { line } => {
            let queue = before.queues.get(line as usize);
            queue.is_some_and(|queue| !queue.is_empty())
        }
    })
}

/// Whether the lives are what the judge's states say, at each step: what waits in which buffer and queue, and the words in memory.
pub fn agree(story: &Story) -> bool {
    if !has_steps(story) {
        return false;
    }
    let lives = lives(story);
    let states = story.states.iter().enumerate();
    states.into_iter().all(|(steps, state)| {
        let entries = |thread| {
            buffer(&lives, thread, steps)
                .into_iter()
                .filter_map(|one| lives[one].waiting())
        };
        let held = |line| {
            queue(&lives, line, steps)
                .into_iter()
                .map(|one| lives[one].held())
        };
        let buffers = state.buffers.iter().enumerate();
        let queues = state.queues.iter().enumerate();
        let words = state.words.iter().enumerate();
        buffers
            .into_iter()
            .all(|(thread, buffer)| entries(thread).eq(buffer.iter().copied()))
            && queues
                .into_iter()
                .all(|(line, queue)| held(line).eq(queue.iter().copied()))
            && words.into_iter().all(|(at, word)| {
                let last = newest(&lives, at, steps).and_then(|one| lives[one].kind.word());
                last.unwrap_or(story.case.first[at]) == *word
            })
    })
}

/// The write that brought a location's word, so many steps behind the start, as an index; none where it holds its first content.
pub fn newest(lives: &[Life], at: usize, steps: usize) -> Option<usize> {
    let here = |one: &usize| {
        let life = &lives[*one];
        life.is_write_to(at) && life.persisted.is_some_and(|index| index < steps)
    };
    (0..lives.len())
        .filter(here)
        .max_by_key(|one| lives[*one].persisted)
}

/// Lives by index: all of them, those in each buffer, those in each queue.
struct Ledger {
    lives: Vec<Life>,
    buffers: Vec<Vec<usize>>,
    queues: Vec<Vec<usize>>,
}

impl Ledger {
    fn issue(&mut self, story: &Story, index: usize, thread: u8) {
        let own = thread as usize;
        let instruction = story.states[index].issued[own];
        let one = story.case.threads[own].get(instruction);
        let Some(kind) = one.and_then(|one| kind_of(story, index, own, one)) else {
            return;
        };
        let straight = matches!(kind, Kind::Exchange { .. });
        let moved = straight.then_some(index);
        let queue = kind.joins().map(|at| story.case.line_of(at));
        let life = Life {
            thread,
            instruction,
            kind,
            queue,
            issued: index,
            moved,
            persisted: None,
        };
        match queue {
            Some(line) if straight => self.queues[line].push(self.lives.len()),
            _ => self.buffers[own].push(self.lives.len()),
        }
        self.lives.push(life);
    }

    fn move_out(&mut self, index: usize, thread: u8, position: u8) {
        let buffer = &mut self.buffers[thread as usize];
        if position as usize >= buffer.len() {
            return;
        }
        let one = buffer.remove(position as usize);
        self.lives[one].moved = Some(index);
        if let Some(line) = self.lives[one].queue {
            self.queues[line].push(one);
        }
    }

    fn persist(&mut self, index: usize, line: u8) {
        let queue = &mut self.queues[line as usize];
        if !queue.is_empty() {
            self.lives[queue.remove(0)].persisted = Some(index);
        }
    }
}

/// What a thread's instruction leaves behind as the step with that index issues it, if anything.
fn kind_of(story: &Story, index: usize, own: usize, one: &Instruction) -> Option<Kind> {
    let (before, after) = (&story.states[index], &story.states[index + 1]);
    match *one {
        Instruction::Store { at, word } => Some(Kind::Store { at, word }),
        // the judge's state has the word that the register held
        Instruction::StoreRegister { at, .. } => match after.buffers[own].last() {
            Some(&Entry::Store { word, .. }) => Some(Kind::Store { at, word }),
            _ => None,
        },
        Instruction::Exchange { at, word, .. } => Some(Kind::Exchange { at, word }),
        // the judge's states say whether it wrote
        Instruction::Compare { at, word, .. } => compared(&story.case, own, before, after)
            .filter(|one| one.succeeds)
            .map(|_| Kind::Exchange { at, word }),
        Instruction::Flush { at } => Some(Kind::Flush { at }),
        Instruction::FlushOpt { at } => Some(Kind::FlushOpt { at }),
        Instruction::Sfence => Some(Kind::Sfence),
        Instruction::Load { .. } | Instruction::Mfence => None,
    }
}

#[cfg(test)]
pub mod tests {
    use super::*;
    use crate::case::Case;
    use crate::story::{search::Search, state::State, Answer};

    /// The outage, written by hand: the row of docs/MACHINE.md, "A run, step by step".
    pub fn outage() -> Story {
        let stores = [
            Entry::Store { at: 0, word: 500 },
            Entry::Store { at: 1, word: 1 },
        ];
        let [limit, valid] = [(0, 500), (1, 1)].map(|(at, word)| vec![Held::Write { at, word }]);
        let none = Vec::new;
        let states = vec![
            state([0, 0], [none(), none()], &[], 0),
            state([0, 0], [none(), none()], &stores[..1], 1),
            state([0, 0], [none(), none()], &stores, 2),
            state([0, 0], [limit.clone(), none()], &stores[1..], 2),
            state([0, 0], [limit.clone(), valid], &[], 2),
            state([0, 1], [limit, none()], &[], 2),
        ];
        let answer = Answer::Reached;
        let file = "examples/outage.txt".to_string();
        Story {
            file,
            case: case(),
            answer,
            search: Some(Search::Walk { runs: 8 }),
            full_length: 6,
            run: run(),
            states,
            away: Vec::new(),
        }
    }

    /// The same row on one cache line, and both words persist.
    pub fn one_line() -> Story {
        let mut story = outage();
        story.case.version = 2;
        story.case.lines = vec![0, 0];
        let [limit, valid] = [(0, 500), (1, 1)].map(|(at, word)| Held::Write { at, word });
        let queues = [vec![], vec![], vec![], vec![limit], vec![limit, valid]];
        story.run[4] = Step::Persist { line: 0 };
        story.run.push(Step::Persist { line: 0 });
        story.states.push(story.states[5].clone());
        let queues = queues.into_iter().chain([vec![valid], vec![]]);
        for (state, queue) in story.states.iter_mut().zip(queues) {
            state.queues = vec![queue];
        }
        story.states[5].words = vec![500, 0];
        story.states[6].words = vec![500, 1];
        story
    }

    fn run() -> Vec<Step> {
        vec![
            Step::Issue { thread: 0 },
            Step::Issue { thread: 0 },
            Step::Move {
                thread: 0,
                position: 0,
            },
            Step::Move {
                thread: 0,
                position: 0,
            },
            Step::Persist { line: 1 },
        ]
    }

    fn case() -> Case {
        let [at_limit, at_valid] =
            [(0, 500), (1, 1)].map(|(at, word)| Instruction::Store { at, word });
        Case {
            version: 1,
            names: vec!["limit".to_string(), "valid".to_string()],
            lines: vec![0, 1],
            first: vec![0, 0],
            threads: vec![vec![at_limit, at_valid]],
            wants: vec![Some(0), Some(1)],
            passed: vec![0],
            run: Vec::new(),
        }
    }

    fn state(words: [u32; 2], queues: [Vec<Held>; 2], buffer: &[Entry], issued: usize) -> State {
        State {
            words: words.to_vec(),
            queues: queues.to_vec(),
            buffers: vec![buffer.to_vec()],
            registers: vec![vec![0; 4]],
            issued: vec![issued],
        }
    }

    #[test]
    fn the_outage_has_two_lives() {
        let found = lives(&outage());
        let times: Vec<_> = found
            .iter()
            .map(|life| (life.issued, life.moved, life.persisted))
            .collect();
        assert_eq!(times, [(0, Some(2), None), (1, Some(3), Some(4))]);
        assert_eq!(found[1].kind, Kind::Store { at: 1, word: 1 });
    }

    #[test]
    fn the_lives_stand_where_the_states_have_entries() {
        let story = outage();
        let found = lives(&story);
        for (steps, state) in story.states.iter().enumerate() {
            assert_eq!(buffer(&found, 0, steps).len(), state.buffers[0].len());
            let lengths = [0, 1].map(|at| queue(&found, at, steps).len());
            assert_eq!(lengths, [0, 1].map(|at| state.queues[at].len()));
        }
    }

    #[test]
    fn what_shares_a_line_persists_in_the_order_of_its_queue() {
        let times = lives(&one_line()).into_iter().map(|life| life.persisted);
        assert_eq!(times.collect::<Vec<_>>(), [Some(4), Some(5)]);
        assert!(agree(&outage()) && agree(&one_line()));
    }

    #[test]
    fn a_write_in_the_queue_must_be_of_the_location_that_the_program_writes() {
        let mut story = one_line();
        story.states[3].queues[0][0] = Held::Write { at: 1, word: 500 };
        assert!(!agree(&story));
    }

    #[test]
    fn an_exchange_goes_straight_to_its_queue_and_a_load_has_no_life() {
        let mut story = outage();
        let exchange = Instruction::Exchange {
            at: 1,
            register: 0,
            word: 1,
        };
        story.case.threads = vec![vec![Instruction::Load { at: 0, register: 0 }, exchange]];
        story.run.truncate(2);
        story.states.truncate(3);
        let found = lives(&story);
        assert_eq!(found.len(), 1);
        assert_eq!((found[0].issued, found[0].moved), (1, Some(1)));
        assert!(found[0].in_queue(2) && !found[0].in_buffer(2) && !found[0].in_queue(1));
    }
}
