//! The sizes of document 01, for messages and for the room of a frame; the proved reader has the last word on them. And how far a search
//! goes if nothing else is said.

pub const THREADS: usize = 4;
pub const LOCATIONS: usize = 16;
pub const INSTRUCTIONS: usize = 16;
pub const REGISTERS: usize = 4;
pub const STEPS: usize = 192;
/// All threads' instructions.
pub const CODE: usize = THREADS * INSTRUCTIONS;
/// Places of one buffer.
pub const POSITIONS: usize = INSTRUCTIONS;
/// Places of one queue in a state that `batch` prints.
pub const QUEUE: usize = CODE;
/// A step's record, in bytes.
pub const STEP_RECORD: usize = 8;
/// The longest record: a program's, with a line byte for each location.
pub const LONGEST_RECORD: usize = 8 + LOCATIONS;
/// The longest file: the program; first contents and wants; instructions; passed counts; steps.
pub const LONGEST: usize =
    LONGEST_RECORD + 18 * LOCATIONS + 12 * CODE + 6 * THREADS + STEP_RECORD * STEPS;
/// The plain walk's budget, in runs: that of the program `question`.
pub const BUDGET: u32 = 1_000_000;
/// The lent memory that the search that remembers takes for a state, in bytes.
pub const STATE: u64 = 768;
/// The memory that it is lent, in bytes.
pub const MEMORY: u64 = 1 << 30;
/// The most that a frame can ask for, but for a word.
pub const MOST_MEMORY: u64 = 16 << 30;
