//! A case as a person sees it: threads, named locations, instructions, what is asked, a run.

/// Locations, cache lines, threads, registers and positions are numbers from 0; `names` has the locations' names.
#[derive(Clone, Debug, PartialEq, Eq)]
pub struct Case {
    /// Of its program record. In version 1 each location has a cache line of its own.
    pub version: u8,
    pub names: Vec<String>,
    /// The cache line that each location lies on, numbered in the order of their first appearance.
    pub lines: Vec<u8>,
    /// What each location holds at first.
    pub first: Vec<u32>,
    pub threads: Vec<Vec<Instruction>>,
    /// The word wanted of each location; none: it may hold anything.
    pub wants: Vec<Option<u32>>,
    /// The least number of instructions issued of each thread; 0: nothing is asked.
    pub passed: Vec<u8>,
    pub run: Vec<Step>,
}

#[derive(Clone, Copy, Debug, PartialEq, Eq)]
pub enum Instruction {
    Store { at: u8, word: u32 },
    StoreRegister { at: u8, register: u8 },
    Load { at: u8, register: u8 },
    Exchange { at: u8, register: u8, word: u32 },
    Compare { at: u8, register: u8, word: u32 },
    Flush { at: u8 },
    FlushOpt { at: u8 },
    Sfence,
    Mfence,
}

#[derive(Clone, Copy, Debug, PartialEq, Eq)]
pub enum Step {
    Issue { thread: u8 },
    Move { thread: u8, position: u8 },
    Persist { line: u8 },
}

impl Step {
    /// The thread that it issues an instruction of.
    pub fn issuer(&self) -> Option<usize> {
        match self {
            Step::Issue { thread } => Some(*thread as usize),
            _ => None,
        }
    }
}

impl Case {
    pub fn line_of(&self, at: u8) -> usize {
        self.lines[at as usize] as usize
    }

    /// The locations on each cache line, by its number.
    pub fn by_line(&self) -> Vec<Vec<usize>> {
        let lines = self.lines.iter().map(|line| *line as usize + 1).max();
        let mut all = vec![Vec::new(); lines.unwrap_or(0)];
        for (at, line) in self.lines.iter().enumerate() {
            all[*line as usize].push(at);
        }
        all
    }

    /// The name of the first location on the cache line: the line goes by it.
    pub fn first_on(&self, line: usize) -> &str {
        let first = self.lines.iter().position(|other| *other as usize == line);
        first.map_or("", |at| &self.names[at])
    }

    /// Whether more than one location lies on the cache line.
    pub fn is_shared(&self, line: usize) -> bool {
        let here = self.lines.iter().filter(|other| **other as usize == line);
        here.count() > 1
    }

    pub fn has_shared(&self) -> bool {
        (0..self.lines.len()).any(|line| self.is_shared(line))
    }
}
