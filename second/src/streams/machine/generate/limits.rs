//! Runs at the last position, line and index, and runs of cases that were refused for their size alone; by
//! construction.

use super::by_turns;
use super::programs::*;
use super::runs::{judged, walk};
use crate::judge::case::{Case, Step, MOST_STEPS, MOST_THREADS};
use crate::judge::machine::judge::LEGAL;
use crate::judge::machine::rules::{ISSUE, MOVE, NONE_LEFT, NO_ENTRY, QUEUE_EMPTY};
use crate::judge::machine::steps::{all_steps, issue, persist, shift};
use crate::streams::layouts::{self, Layout};
use crate::streams::machine::frame::Trial;
use crate::streams::once;
use crate::streams::random::Random;
use crate::streams::sizes::{INSTRUCTIONS, LOCATIONS, THREADS};

/// A case with its run, and what that is answered: 103, or the rule that its last step breaks.
type Maker = fn(&mut Random) -> (Case, Vec<Step>, u8);

const MAKERS: [(&str, Maker); 8] = [
    ("limit: last position", |random| {
        passing(random, LOCATIONS, INSTRUCTIONS)
    }),
    ("limit: last line", |random| {
        let own = Layout::own(LOCATIONS);
        let layout = match random.one_in(2) {
            true => Layout::told(&own.line),
            false => own,
        };
        persisting(random, layout)
    }),
    ("limit: last index", |random| {
        let case = full_program(random, LOCATIONS, &LONGEST);
        ended(random, case, MOST_STEPS - 1)
    }),
    ("once 5: a location", |random| {
        persisting(random, Layout::own(once::LOCATIONS + 1))
    }),
    ("once 3: a told line", |random| {
        let own = Layout::own(once::LOCATIONS + 1);
        persisting(random, Layout::told(&own.line))
    }),
    ("once 7: an instruction", |random| {
        passing(random, once::LOCATIONS, once::INSTRUCTIONS + 1)
    }),
    ("once 5: a position", beyond_the_last),
    ("once 9: a step", |random| {
        let locations = random.between(1, once::LOCATIONS);
        let counts = [once::INSTRUCTIONS; MOST_THREADS];
        let case = program(random, locations, &counts, &LONGEST);
        ended(random, case, once::STEPS)
    }),
];

pub fn all(random: &mut Random) -> Vec<Trial> {
    by_turns(random, &MAKERS, 40, |random, (name, maker)| {
        let (mut case, steps, number) = maker(random);
        let place = match number {
            LEGAL => steps.len(),
            _ => steps.len() - 1,
        };
        case.set_run(&steps);
        judged(random, name, number, place, &case)
    })
}

/// A thread of some program with so many flush-opts, all issued; nothing else has an instruction.
fn flushing(random: &mut Random, locations: u8, count: u8) -> (Case, u8, Vec<Step>) {
    let layout = Layout::draw(random, locations);
    let mut case = layouts::case(random.between(1, THREADS), &layout);
    let thread = random.between(0, case.threads - 1);
    for _ in 0..count {
        let made = instruction(random, 6, locations);
        add(&mut case, thread.into(), made);
    }
    let steps = vec![issue(thread); count.into()];
    (case, thread, steps)
}

/// The last of so many flush-opts passes all others.
fn passing(random: &mut Random, most: u8, count: u8) -> (Case, Vec<Step>, u8) {
    let locations = random.between(1, most);
    let (case, thread, mut steps) = flushing(random, locations, count);
    steps.push(shift(thread, count - 1));
    (case, steps, LEGAL)
}

/// No thread has so many entries.
fn beyond_the_last(random: &mut Random) -> (Case, Vec<Step>, u8) {
    let count = random.between(0, once::INSTRUCTIONS);
    let locations = random.between(1, once::LOCATIONS);
    let (case, thread, mut steps) = flushing(random, locations, count);
    let any = random.between(once::INSTRUCTIONS, INSTRUCTIONS - 1);
    steps.push(shift(thread, random.pick(&[once::INSTRUCTIONS, any])));
    (case, steps, NO_ENTRY)
}

/// A store of the last location, carried through, where each has a line of its own.
fn persisting(random: &mut Random, layout: Layout) -> (Case, Vec<Step>, u8) {
    let mut case = layouts::case(random.between(1, THREADS), &layout);
    let thread = random.between(0, case.threads - 1);
    let last = layout.locations() - 1;
    let made = instruction_at(random, 1, last);
    add(&mut case, thread.into(), made);
    let steps = vec![issue(thread), shift(thread, 0), persist(last)];
    (case, steps, LEGAL)
}

/// So many legal steps of a program whose instructions have three each: nothing is left, or one entry of a
/// queue. Then a step for which there is nothing.
fn ended(random: &mut Random, case: Case, length: usize) -> (Case, Vec<Step>, u8) {
    let (mut steps, state) = walk(random, &case, length);
    let mut others = all_steps(&case);
    others.retain(|step| match step.code {
        ISSUE => true,
        MOVE => step.position == 0,
        _ => state.queues[usize::from(step.line)].count == 0,
    });
    let last = random.pick(&others);
    steps.push(last);
    let rule = match last.code {
        ISSUE => NONE_LEFT,
        MOVE => NO_ENTRY,
        _ => QUEUE_EMPTY,
    };
    (case, steps, rule)
}
