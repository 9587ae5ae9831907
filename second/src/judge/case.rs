//! A case in memory, the sizes of document 01 and the versions of a program record.

pub const MOST_THREADS: usize = 4;
pub const MOST_LOCATIONS: usize = 16;
pub const MOST_INSTRUCTIONS: usize = 16;
pub const MOST_STEPS: usize = 192;
pub const REGISTERS: u8 = 4;
/// Of a store buffer: it has room for all that its thread has.
pub const POSITIONS: u8 = MOST_INSTRUCTIONS as u8;
/// Instructions of all threads together.
pub const ALL_CODE: usize = MOST_THREADS * MOST_INSTRUCTIONS;

/// A line for each location; the record says nothing of lines.
pub const OWN_LINES: u16 = 1;
/// The record has the line of each location.
pub const TOLD_LINES: u16 = 2;

#[derive(Clone, Copy, Debug, Default, PartialEq, Eq)]
pub struct Instruction {
    pub operation: u8,
    pub location: u8,
    pub register: u8,
    pub word: u32,
}

impl Instruction {
    pub fn new(operation: u8, location: u8, register: u8, word: u32) -> Instruction {
        Instruction {
            operation,
            location,
            register,
            word,
        }
    }
}

#[derive(Clone, Copy, Debug, Default, PartialEq, Eq)]
pub struct Step {
    pub thread: u8,
    pub code: u8,
    pub position: u8,
    /// What a persist takes from; in document 01 a location, each on a line of its own.
    pub line: u8,
}

/// Every field can hold any number; `form::fits` says which cases some file reads as.
#[derive(Clone, Debug, PartialEq, Eq)]
pub struct Case {
    pub version: u16,
    pub threads: u8,
    pub locations: u8,
    pub lines: u8,
    /// By location; 0 behind the program's.
    pub line: [u8; MOST_LOCATIONS],
    /// 0: no first content.
    pub first: [u32; MOST_LOCATIONS],
    /// Instructions of each thread.
    pub counts: [u8; MOST_THREADS],
    /// Instruction i of thread t stands at `MOST_INSTRUCTIONS` * t + i.
    pub code: [Instruction; ALL_CODE],
    pub wanted: [bool; MOST_LOCATIONS],
    pub want: [u32; MOST_LOCATIONS],
    /// 0: no passed count.
    pub passed: [u8; MOST_THREADS],
    pub count: u16,
    pub steps: [Step; MOST_STEPS],
}

impl Case {
    /// The case that a refused reading hands out.
    pub fn empty() -> Case {
        Case {
            version: OWN_LINES,
            threads: 1,
            locations: 1,
            lines: 1,
            line: [0; MOST_LOCATIONS],
            first: [0; MOST_LOCATIONS],
            counts: [0; MOST_THREADS],
            code: [Instruction::default(); ALL_CODE],
            wanted: [false; MOST_LOCATIONS],
            want: [0; MOST_LOCATIONS],
            passed: [0; MOST_THREADS],
            count: 0,
            steps: [Step::default(); MOST_STEPS],
        }
    }

    /// A program of that size without instructions, each location on a line of its own.
    pub fn of_size(threads: u8, locations: u8) -> Case {
        let mut case = Case::empty();
        case.threads = threads;
        case.locations = locations;
        let lines: Vec<u8> = (0..locations).collect();
        case.set_lines(OWN_LINES, &lines);
        case
    }

    /// The lines of the program's locations, numbered as they must be.
    pub fn set_lines(&mut self, version: u16, lines: &[u8]) {
        self.version = version;
        self.lines = lines.iter().max().map_or(0, |last| last + 1);
        self.line = [0; MOST_LOCATIONS];
        self.line[..lines.len()].copy_from_slice(lines);
    }

    /// The line of a location that the program has.
    pub fn line_of(&self, location: u8) -> usize {
        self.line[usize::from(location)].into()
    }

    /// The places in `code` of one thread.
    pub fn places(thread: usize) -> std::ops::Range<usize> {
        thread * MOST_INSTRUCTIONS..(thread + 1) * MOST_INSTRUCTIONS
    }

    /// As many threads and locations as a program may have, and at least one of each.
    pub fn sizes_fit(threads: u8, locations: u8) -> bool {
        (1..=MOST_THREADS).contains(&threads.into())
            && (1..=MOST_LOCATIONS).contains(&locations.into())
    }

    /// The run to be judged, in place of what stood there.
    pub fn set_run(&mut self, steps: &[Step]) {
        self.count = steps.len() as u16;
        self.steps[..steps.len()].copy_from_slice(steps);
    }
}
