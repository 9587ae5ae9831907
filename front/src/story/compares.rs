//! What each compare of a run found, and whether it wrote: read off the judge's states around its issue, and worked out nowhere.

use super::state::State;
use super::Story;
use crate::case::{Case, Instruction};

#[derive(Clone, Copy, Debug, PartialEq, Eq)]
pub struct Compared {
    pub thread: usize,
    /// The index of its instruction in the thread.
    pub instruction: usize,
    pub at: u8,
    pub register: u8,
    /// What its register held before.
    pub expected: u32,
    /// What its register holds behind it.
    pub found: u32,
    /// Whether the queue of its line has grown.
    pub succeeds: bool,
}

/// The compare that the thread issues between two states; none where its next instruction is another.
pub fn compared(case: &Case, thread: usize, before: &State, after: &State) -> Option<Compared> {
    let instruction = before.issued[thread];
    let Some(&Instruction::Compare { at, register, .. }) = case.threads[thread].get(instruction)
    else {
        return None;
    };
    let held = |state: &State| state.registers[thread][register as usize];
    let waits = |state: &State| state.queues[case.line_of(at)].len();
    Some(Compared {
        thread,
        instruction,
        at,
        register,
        expected: held(before),
        found: held(after),
        succeeds: waits(after) > waits(before),
    })
}

/// The compares of the legal steps, each with the index of its step.
pub fn all(story: &Story) -> Vec<(usize, Compared)> {
    let steps = story.run.iter().zip(story.states.windows(2)).enumerate();
    let issued = steps.filter_map(|(index, (step, pair))| {
        let one = compared(&story.case, step.issuer()?, &pair[0], &pair[1])?;
        Some((index, one))
    });
    issued.collect()
}

/// Those that fail.
pub fn failed(story: &Story) -> impl Iterator<Item = (usize, Compared)> {
    all(story).into_iter().filter(|(_, one)| !one.succeeds)
}

/// Whether each has written where it found what its register held, and nowhere else.
pub fn agree(story: &Story) -> bool {
    let is_so = |one: &Compared| one.succeeds == (one.found == one.expected);
    all(story).iter().all(|(_, one)| is_so(one))
}

#[cfg(test)]
pub mod tests {
    use super::*;
    use crate::case::Step;
    use crate::story::lives::{self, tests::outage};
    use crate::story::state::Held;

    /// Two writers take a lock at location 0: the first finds it free, the second finds the first one's word in the queue.
    pub fn contended() -> Story {
        let mut story = outage();
        let compare = |word| Instruction::Compare {
            at: 0,
            register: 2,
            word,
        };
        story.case.threads = vec![vec![compare(1)], vec![compare(2)]];
        story.case.passed = vec![0, 0];
        story.run = vec![Step::Issue { thread: 0 }, Step::Issue { thread: 1 }];
        let mut start = story.states[0].clone();
        start.buffers = vec![Vec::new(); 2];
        start.registers = vec![vec![0; 4]; 2];
        start.issued = vec![0, 0];
        let mut taken = start.clone();
        taken.issued = vec![1, 0];
        taken.queues[0].push(Held::Write { at: 0, word: 1 });
        let mut lost = taken.clone();
        lost.issued = vec![1, 1];
        lost.registers[1][2] = 1;
        story.states = vec![start, taken, lost];
        story
    }

    #[test]
    fn a_compare_succeeds_where_its_queue_grows_and_finds_what_its_register_takes() {
        let found: Vec<_> = all(&contended())
            .iter()
            .map(|(index, one)| (*index, one.thread, one.expected, one.found, one.succeeds))
            .collect();
        assert_eq!(found, [(0, 0, 0, 0, true), (1, 1, 0, 1, false)]);
        assert!(all(&outage()).is_empty());
    }

    #[test]
    fn only_a_compare_that_succeeds_is_a_write() {
        let story = contended();
        let lives = lives::lives(&story);
        let times: Vec<_> = lives.iter().map(|one| (one.issued, one.moved)).collect();
        assert_eq!(times, [(0, Some(0))]);
        assert_eq!(lives[0].kind.write(), Some((0, 1)));
        assert!(lives::agree(&story) && agree(&story));
    }

    #[test]
    fn a_write_of_other_words_or_against_what_was_found_does_not_agree() {
        let mut story = contended();
        story.states[2].queues[0].push(Held::Write { at: 0, word: 2 });
        assert!(lives::agree(&story) && !agree(&story));
        let mut story = contended();
        story.states[2].registers[1][2] = 0;
        assert!(lives::agree(&story) && !agree(&story));
        let mut story = contended();
        for state in &mut story.states[1..] {
            state.queues[0][0] = Held::Write { at: 0, word: 2 };
        }
        assert!(!lives::agree(&story) && agree(&story));
    }
}
