//! The proved library's judge and questions, called as a C program calls them (include/garluveni.h), in two builds of it.

use crate::case::STEP_RECORD;

type Judge = unsafe extern "C" fn(*const u8, usize) -> u32;
type Question = unsafe extern "C" fn(*const u8, usize, *mut u8, usize, u32) -> u32;

/// The number, as a walk that remembers gives it, or with the states above it.
type Remember<Number> =
    unsafe extern "C" fn(*const u8, usize, *mut u8, usize, *mut u32, usize, u32) -> Number;

/// 32-bit words of lent memory for a state.
pub const STATE_WORDS: usize = 192;

pub struct Library {
    judge: Judge,
    question: Question,
    /// A build from before a walk remembered has none.
    pub remembering: Option<Remembering>,
}

pub struct Remembering {
    remember: Remember<u32>,
    counting: Remember<u64>,
}

/// A build, by the names that its functions are linked under.
macro_rules! library {
    ($judge:ident, $question:ident, $remembering:expr) => {{
        extern "C" {
            fn $judge(file: *const u8, file_len: usize) -> u32;
            fn $question(
                file: *const u8,
                file_len: usize,
                steps: *mut u8,
                steps_len: usize,
                budget: u32,
            ) -> u32;
        }
        Library { judge: $judge, question: $question, remembering: $remembering }
    }};
}

/// The walk that remembers of a build, by the same.
macro_rules! remembering {
    ($($field:ident: $name:ident -> $number:ty),*) => {{
        extern "C" {
            $(fn $name(
                file: *const u8,
                file_len: usize,
                steps: *mut u8,
                steps_len: usize,
                memory: *mut u32,
                memory_len: usize,
                budget: u32,
            ) -> $number;)*
        }
        Some(Remembering { $($field: $name),* })
    }};
}

pub const NOW: Library = library!(
    garluveni_judge,
    garluveni_question,
    remembering!(remember: garluveni_remember -> u32, counting: garluveni_remember_counting -> u64)
);

/// The build to compare with, whose functions bench/build has given these names.
pub const BEFORE: Library = library!(before_judge, before_question, BEFORE_REMEMBERING);

/// bench/build says whether that build has them.
#[cfg(before_remembers)]
const BEFORE_REMEMBERING: Option<Remembering> =
    remembering!(remember: before_remember -> u32, counting: before_remember_counting -> u64);
#[cfg(not(before_remembers))]
const BEFORE_REMEMBERING: Option<Remembering> = None;

/// The rules' numbers, and those of the answers, are above those of reading's refusals.
const FIRST_RULE: u32 = 21;

impl Library {
    /// Does reading refuse the case's file?
    pub fn refuses(&self, file: &[u8]) -> bool {
        self.judge(file) % 256 < FIRST_RULE
    }

    /// The packed number for the run in the case's file.
    pub fn judge(&self, file: &[u8]) -> u32 {
        // A whole slice of this program, alive during the call.
        unsafe { (self.judge)(file.as_ptr(), file.len()) }
    }

    /// The packed number for the case's file; the lent bytes hold the steps where the question is reached.
    pub fn question(&self, file: &[u8], lent: &mut [u8], budget: u32) -> u32 {
        // Both are whole slices of this program, alive during the call, and do not overlap.
        unsafe { (self.question)(file.as_ptr(), file.len(), lent.as_mut_ptr(), lent.len(), budget) }
    }
}

impl Remembering {
    /// The same of the distinct states; the lent memory is all zeros afterwards.
    pub fn remember(&self, file: &[u8], lent: &mut [u8], memory: &mut [u32], budget: u32) -> u32 {
        called(self.remember, file, lent, memory, budget)
    }

    /// The same, with 2 to the power of 32 times the states where the answer is unreachable.
    pub fn counting(&self, file: &[u8], lent: &mut [u8], memory: &mut [u32], budget: u32) -> u64 {
        called(self.counting, file, lent, memory, budget)
    }
}

fn called<N>(function: Remember<N>, file: &[u8], lent: &mut [u8], memory: &mut [u32], budget: u32) -> N {
    let (steps, words) = (lent.as_mut_ptr(), memory.as_mut_ptr());
    // All three are whole slices of this program, alive during the call, and do not overlap.
    unsafe { function(file.as_ptr(), file.len(), steps, lent.len(), words, memory.len(), budget) }
}

/// The least bytes to lend for a program of the full length.
pub fn room(full_length: usize) -> usize {
    STEP_RECORD * full_length
}
