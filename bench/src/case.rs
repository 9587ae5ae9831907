//! A case to measure: a program with its question or its run, as data for the plain sides and as bytes for the
//! library (document 01, "Records of a case").

use Operation::*;

/// The most of each thing that a case may have.
pub const THREADS: usize = 4;
pub const INSTRUCTIONS: usize = 16;
pub const LOCATIONS: usize = 16;

#[derive(Clone, Copy)]
pub enum Operation {
    StoreWord(u8, u32),
    StoreRegister(u8, u8),
    Load(u8, u8),
    Exchange(u8, u8, u32),
    Flush(u8),
    FlushOpt(u8),
    Sfence,
    Mfence,
    Compare(u8, u8, u32),
}

#[derive(Clone)]
pub struct Case {
    pub name: &'static str,
    pub locations: u8,
    pub threads: Vec<Vec<Operation>>,
    pub wants: Vec<(u8, u32)>,
    pub passed: Vec<(u8, u8)>,
    pub steps: Vec<Step>,
    pub budget: u32,
}

/// One step of a run.
#[derive(Clone, Copy, PartialEq, Debug)]
pub enum Step {
    Issue(u8),
    Move(u8, u8),
    Persist(u8),
}

/// The bytes of a step's record.
pub const STEP_RECORD: usize = 8;

impl Step {
    /// The step's record: length, kind, thread, code, position, location.
    pub fn record(self) -> [u8; STEP_RECORD] {
        match self {
            Step::Issue(thread) => [4, 0, 6, 0, thread, 0, 0, 0],
            Step::Move(thread, position) => [4, 0, 6, 0, thread, 1, position, 0],
            Step::Persist(location) => [4, 0, 6, 0, 0, 2, 0, location],
        }
    }
}

impl Operation {
    /// Operation number, location, register, word; a field not used is 0.
    fn fields(self) -> (u8, u8, u8, u32) {
        match self {
            StoreWord(location, word) => (1, location, 0, word),
            StoreRegister(location, register) => (2, location, register, 0),
            Load(location, register) => (3, location, register, 0),
            Exchange(location, register, word) => (4, location, register, word),
            Flush(location) => (5, location, 0, 0),
            FlushOpt(location) => (6, location, 0, 0),
            Sfence => (7, 0, 0, 0),
            Mfence => (8, 0, 0, 0),
            Compare(location, register, word) => (9, location, register, word),
        }
    }

    /// The word that it writes, if it names one.
    fn word(&mut self) -> Option<&mut u32> {
        match self {
            StoreWord(_, word) | Exchange(_, _, word) | Compare(_, _, word) => Some(word),
            _ => None,
        }
    }

    /// How many steps the operation takes at most from issued to done (document 01, "Work left and the walk").
    fn weight(self) -> usize {
        match self {
            StoreWord(..) | StoreRegister(..) | FlushOpt(_) => 3,
            Flush(_) | Sfence | Exchange(..) | Compare(..) => 2,
            Load(..) | Mfence => 1,
        }
    }
}

impl Case {
    /// A program that nothing is asked of.
    pub fn of(name: &'static str, locations: u8, threads: Vec<Vec<Operation>>) -> Case {
        let (wants, passed, steps) = (Vec::new(), Vec::new(), Vec::new());
        Case { name, locations, threads, wants, passed, steps, budget: 0 }
    }

    /// The full length: no run is longer.
    pub fn full_length(&self) -> usize {
        self.threads.iter().flatten().map(|operation| operation.weight()).sum()
    }

    /// The same case with its words numbered, 0 as 0: the machine only compares them, so its states and steps are the
    /// same, and a word fits in a byte.
    pub fn with_small_words(&self) -> Case {
        let mut case = self.clone();
        let mut known = vec![0];
        let written = case.threads.iter_mut().flatten().filter_map(Operation::word);
        for word in written.chain(case.wants.iter_mut().map(|(_, word)| word)) {
            if !known.contains(word) {
                known.push(*word);
            }
            *word = known.iter().position(|one| one == word).map_or(0, |number| number as u32);
        }
        case
    }

    pub fn bytes(&self) -> Vec<u8> {
        let mut file = vec![4, 0, 1, 0, 1, 0, self.threads.len() as u8, self.locations];
        for (thread, instructions) in self.threads.iter().enumerate() {
            for instruction in instructions {
                let (operation, location, register, word) = instruction.fields();
                file.extend([8, 0, 3, 0, thread as u8, operation, location, register]);
                file.extend(word.to_le_bytes());
            }
        }
        for (location, word) in &self.wants {
            file.extend([5, 0, 4, 0, *location]);
            file.extend(word.to_le_bytes());
        }
        for (thread, least) in &self.passed {
            file.extend([2, 0, 5, 0, *thread, *least]);
        }
        file.extend(self.steps.iter().flat_map(|step| step.record()));
        file
    }
}
