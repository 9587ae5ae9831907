//! Instructions, steps and entries in words, as docs/TEXT.md writes them; names as long as the place for them allows.

use super::ink::shorten;
use crate::case::{Case, Step};
use crate::story::lives::{Kind, Life};
use crate::story::{compares, Answer, Story};
use crate::tell::report;
use crate::text::layout;

/// The columns of a name inside a chip or a step's words; `FULL` cuts nothing.
pub const SHORT: i32 = 10;
pub const FULL: i32 = 200;

pub fn name(case: &Case, at: u8, most: i32) -> String {
    shorten(&case.names[at as usize], most)
}

/// An entry as it waits in a buffer.
pub fn entry(case: &Case, kind: Kind, most: i32) -> String {
    let name = |at| name(case, at, most);
    match kind {
        Kind::Store { at, word } | Kind::Exchange { at, word } => format!("{} {word}", name(at)),
        Kind::Flush { at } => format!("clflush {}", name(at)),
        Kind::FlushOpt { at } => format!("clflushopt {}", name(at)),
        Kind::Sfence => "sfence".to_string(),
    }
}

/// A cache line that several locations share, by its number, as the steps have it.
pub fn line(number: usize) -> String {
    format!("line {number}")
}

/// An entry as it waits in a queue: a write names its location where others share the line, a marker its thread where there are several.
pub fn held(case: &Case, life: &Life, most: i32) -> String {
    let is_shared = life.queue.is_some_and(|line| case.is_shared(line));
    match life.kind.word() {
        Some(_) if is_shared => entry(case, life.kind, most),
        Some(word) => word.to_string(),
        None if case.threads.len() == 1 => "marker".to_string(),
        None => format!("marker {}", life.thread),
    }
}

/// What stands below a persistent word that is wanted to be this one.
pub fn wanted(want: u32, is_met: bool) -> String {
    match is_met {
        true => "✓ wanted".to_string(),
        false => format!("wanted {want}"),
    }
}

/// What a legal step does, in a few words; `life` is the entry that it touches.
pub fn deed(story: &Story, index: usize, life: Option<&Life>, most: i32) -> String {
    let case = &story.case;
    match (story.run[index], life) {
        (Step::Issue { thread }, _) => {
            let issued = story.states[index].issued[thread as usize];
            let one = &case.threads[thread as usize][issued];
            let words = layout::instruction_by(&|at| name(case, at, most), one);
            let fails = compares::failed(story).any(|(failed, _)| failed == index);
            words + if fails { " fails" } else { "" }
        }
        (Step::Move { .. }, Some(life)) => match life.kind {
            Kind::FlushOpt { at } if case.is_shared(case.line_of(at)) => {
                format!("marker to {}'s line", name(case, at, most))
            }
            Kind::FlushOpt { at } => format!("marker to {}", name(case, at, most)),
            Kind::Flush { .. } | Kind::Sfence => format!("{} done", entry(case, life.kind, most)),
            _ => format!("{} moves", entry(case, life.kind, most)),
        },
        (Step::Persist { .. }, Some(life)) if life.kind.word().is_some() => {
            format!("{} persists", entry(case, life.kind, most))
        }
        _ => "marker vanishes".to_string(),
    }
}

/// The answer in one word, as the programs print it.
pub fn answer(story: &Story) -> String {
    story.answer.word().to_uppercase()
}

/// What the answer means, in a sentence.
pub fn verdict(story: &Story) -> String {
    let deed = report::deed(&story.case, " ");
    match story.answer {
        Answer::Reached => format!("A power cut can {deed}."),
        Answer::Unreachable { .. } => format!("No power cut can {deed}."),
        Answer::Undecided { .. } => format!("Can a power cut {deed}? Not decided."),
        Answer::Legal => format!(
            "All steps are legal: {}.",
            story.states.len().saturating_sub(1)
        ),
        Answer::Illegal { index, rule, .. } => match story.run.get(index) {
            Some(taken) => {
                format!(
                    "Step {}, {}, breaks rule {rule}.",
                    index + 1,
                    layout::short_step(taken)
                )
            }
            None => format!("Step {} breaks rule {rule}.", index + 1),
        },
    }
}

/// The last part of the file's path.
pub fn file_name(story: &Story) -> &str {
    story.file.rsplit('/').next().unwrap_or("")
}
