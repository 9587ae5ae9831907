//! What is known of a program from its instructions alone.

use super::carried::Carried;
use crate::judge::case::{Case, Instruction};
use crate::judge::machine::rules::{COMPARE, EXCHANGE, STORE_REGISTER};

/// The most steps of operations 1 to 9 from the issue to the end: the weights of documents 01 and 02,
/// written down once more so that the full length does not rest on the machine's own sum.
const LENGTHS: [u32; 9] = [3, 3, 1, 2, 2, 3, 2, 1, 2];

/// Where a location's persistent word can come from.
#[derive(Clone, Copy, Debug, PartialEq, Eq)]
pub enum Origin {
    /// It is the location's first content.
    First,
    /// An instruction writes it there.
    Written,
    /// It is a first content or a word of any instruction, and a register can be stored there.
    Carried,
}

#[derive(Clone)]
pub struct Program {
    /// Without wants, passed counts and steps.
    pub case: Case,
    pub full: u32,
    /// By location: the threads that write it, or would with a compare that succeeds, rising.
    pub writers: Vec<Vec<usize>>,
    /// Some instruction is a compare.
    pub compares: bool,
}

impl Program {
    pub fn of(case: &Case) -> Program {
        let case = Case {
            first: case.first,
            counts: case.counts,
            code: case.code,
            threads: case.threads,
            locations: case.locations,
            version: case.version,
            lines: case.lines,
            line: case.line,
            ..Case::empty()
        };
        let threads = 0..usize::from(case.threads);
        let all = threads.clone().flat_map(|thread| code(&case, thread));
        let compares = all.clone().any(is_compare);
        let full = all.map(|one| LENGTHS[usize::from(one.operation) - 1]).sum();
        let writes_there = |thread: usize, at: u8| {
            let mut code = code(&case, thread).iter();
            code.any(|one| writes(one) && one.location == at)
        };
        let writers_of = |at| threads.clone().filter(|&t| writes_there(t, at)).collect();
        let writers = (0..case.locations).map(writers_of).collect();
        Program {
            case,
            full,
            writers,
            compares,
        }
    }

    /// Every location with each thread that writes it in the run in which that thread comes last.
    pub fn pairs(&self) -> Vec<(usize, usize)> {
        let of = |(at, threads): (usize, &Vec<usize>)| {
            let made = threads
                .iter()
                .filter(|&&thread| self.makes_last(thread, at));
            let pairs = made.map(|&thread| (at, thread));
            pairs.collect::<Vec<(usize, usize)>>()
        };
        self.writers.iter().enumerate().flat_map(of).collect()
    }

    /// Of a writer of the location; where nothing is a compare, each writes whatever comes before.
    fn makes_last(&self, thread: usize, at: usize) -> bool {
        !self.compares || self.carried(thread).made[at] == Some(thread)
    }

    /// Where one thread alone writes the location, and a word last: that word.
    pub fn only_word(&self, at: usize) -> Option<u32> {
        let thread = match self.writers[at][..] {
            [one] => one,
            _ => return None,
        };
        let mut code = code(&self.case, thread).iter().rev();
        let last = code.find(|one| writes(one) && usize::from(one.location) == at)?;
        (writes_word(last) && !is_compare(last)).then_some(last.word)
    }

    /// The first that a word at a location can have: by the program's text alone.
    pub fn origin(&self, at: usize, word: u32) -> Option<Origin> {
        let firsts = &self.case.first[..self.writers.len()];
        let threads = 0..usize::from(self.case.threads);
        let all = threads.flat_map(|thread| code(&self.case, thread));
        let here = |one: &&Instruction| usize::from(one.location) == at;
        let written = |one: &Instruction| writes_word(one) && one.word == word;
        if firsts[at] == word {
            return Some(Origin::First);
        }
        if all.clone().filter(here).any(written) {
            return Some(Origin::Written);
        }
        let stored = all
            .clone()
            .filter(here)
            .any(|one| one.operation == STORE_REGISTER);
        let carried = stored && (firsts.contains(&word) || all.clone().any(written));
        carried.then_some(Origin::Carried)
    }

    /// The words that the thread's instructions hold.
    pub fn words(&self, thread: usize) -> impl Iterator<Item = u32> + '_ {
        let words = code(&self.case, thread)
            .iter()
            .filter(|one| writes_word(one));
        words.map(|one| one.word)
    }

    /// First contents and the words of the instructions are all different.
    pub fn words_differ(&self) -> bool {
        let threads = 0..usize::from(self.case.threads);
        let mut all: Vec<u32> = threads.flat_map(|thread| self.words(thread)).collect();
        all.extend(self.case.first.iter().filter(|&&word| word != 0));
        let count = all.len();
        all.sort_unstable();
        all.dedup();
        all.len() == count && !all.contains(&0)
    }

    /// The run written out: every thread's instructions one after the other, each carried through
    /// to its end before the next, the given thread behind all others.
    pub fn carried(&self, last: usize) -> Carried {
        let threads = 0..usize::from(self.case.threads);
        let others = threads.filter(|&thread| thread != last);
        let mut carried = Carried::start(&self.case);
        for thread in others.chain([last]) {
            for one in code(&self.case, thread) {
                carried.carry_through(&self.case, thread, one);
            }
        }
        carried
    }
}

pub fn code(case: &Case, thread: usize) -> &[Instruction] {
    &case.code[Case::places(thread)][..usize::from(case.counts[thread])]
}

/// Stores and exchanges, and compares, which write if they succeed.
pub fn writes(one: &Instruction) -> bool {
    one.operation == STORE_REGISTER || writes_word(one)
}

/// What is written, if anything is, stands in the instruction.
pub fn writes_word(one: &Instruction) -> bool {
    [1, EXCHANGE, COMPARE].contains(&one.operation)
}

pub fn is_compare(one: &Instruction) -> bool {
    one.operation == COMPARE
}
