//! Steps in range, in the order in which a walk takes them.

use super::rules::{ISSUE, MOVE, PERSIST};
use crate::judge::case::{Case, Step, POSITIONS};

pub fn issue(thread: u8) -> Step {
    Step {
        thread,
        code: ISSUE,
        ..Step::default()
    }
}

pub fn shift(thread: u8, position: u8) -> Step {
    Step {
        thread,
        code: MOVE,
        position,
        ..Step::default()
    }
}

pub fn persist(line: u8) -> Step {
    Step {
        code: PERSIST,
        line,
        ..Step::default()
    }
}

/// Every step in range: issue by thread, move by thread then position, persist by line.
pub fn all_steps(case: &Case) -> Vec<Step> {
    let threads = 0..case.threads;
    let mut steps: Vec<Step> = threads.clone().map(issue).collect();
    for thread in threads {
        steps.extend((0..POSITIONS).map(|position| shift(thread, position)));
    }
    steps.extend((0..case.lines).map(persist));
    steps
}

/// A run as document 01 prints it, in one line.
pub fn printed(run: &[Step]) -> String {
    let one = |step: &Step| match step.code {
        ISSUE => format!("I{}", step.thread),
        MOVE => format!("M{}.{}", step.thread, step.position),
        _ => format!("P{}", step.line),
    };
    run.iter().map(one).collect::<Vec<String>>().join(" ")
}
