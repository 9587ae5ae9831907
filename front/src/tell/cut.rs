//! What a power cut leaves, word by word: which write each location has, which ones are lost, and which wanted words make a torn row.

use super::run;
use crate::case::Instruction;
use crate::story::lives::{self, Life};
use crate::story::Story;
use crate::text::layout;

/// A location at the cut.
pub struct Place {
    pub at: usize,
    pub word: u32,
    /// How the word came to be there.
    pub from: String,
    /// The writes that did not get there.
    pub lost: Vec<String>,
}

/// Wanted words of which one is in memory while a write that was issued before it, to another wanted location, is lost.
pub struct Torn {
    /// The locations that have the later write.
    pub new: Vec<usize>,
    /// The locations that lack the earlier one.
    pub old: Vec<usize>,
}

pub fn places(story: &Story) -> Vec<Place> {
    let lives = lives::lives(story);
    let end = story.states.last();
    let words = end.map_or(&story.case.first, |state| &state.words);
    words
        .iter()
        .enumerate()
        .map(|(at, word)| place(story, &lives, at, *word))
        .collect()
}

fn place(story: &Story, lives: &[Life], at: usize, word: u32) -> Place {
    let last = lives::newest(lives, at, story.run.len()).map(|one| &lives[one]);
    let from = match last.and_then(|life| Some((life.thread, life.persisted?))) {
        Some((thread, step)) => format!("thread {thread}'s write, persisted in step {}", step + 1),
        None => "what it held at first".to_string(),
    };
    let waiting = lives
        .iter()
        .filter(|life| life.is_write_to(at) && life.persisted.is_none());
    let mut lost: Vec<String> = waiting.map(|life| waited(story, life)).collect();
    lost.extend(unissued(story, at));
    Place {
        at,
        word,
        from,
        lost,
    }
}

fn waited(story: &Story, life: &Life) -> String {
    let word = life.kind.word().unwrap_or(0);
    match (life.moved, life.queue) {
        (Some(_), Some(line)) => {
            format!("{word} was still in {}", run::queue(&story.case, line))
        }
        _ => format!("{word} was still in thread {}'s buffer", life.thread),
    }
}

/// Writes to a location that were not issued by the end; a compare may be none.
fn unissued(story: &Story, at: usize) -> Vec<String> {
    let Some(end) = story.states.last() else {
        return Vec::new();
    };
    let threads = story.case.threads.iter().enumerate();
    let left = threads.flat_map(|(thread, code)| {
        code.iter()
            .skip(end.issued[thread])
            .map(move |one| (thread, one))
    });
    let here = left.filter(|(_, one)| written(one) == Some(at));
    here.map(|(thread, one)| {
        let may_fail = match one {
            Instruction::Compare { .. } => ", which may fail",
            _ => "",
        };
        let one = layout::instruction(&story.case, one);
        format!("thread {thread} had not issued '{one}'{may_fail}")
    })
    .collect()
}

fn written(one: &Instruction) -> Option<usize> {
    match one {
        Instruction::Store { at, .. }
        | Instruction::StoreRegister { at, .. }
        | Instruction::Exchange { at, .. }
        | Instruction::Compare { at, .. } => Some(*at as usize),
        _ => None,
    }
}

pub fn torn(story: &Story) -> Option<Torn> {
    let lives = lives::lives(story);
    let wanted: Vec<usize> = (0..story.case.names.len())
        .filter(|at| story.case.wants[*at].is_some())
        .collect();
    let there = |at: usize| lives::newest(&lives, at, story.run.len()).map(|one| lives[one].issued);
    let lost = |at: usize| {
        let lost = lives
            .iter()
            .filter(|life| life.is_write_to(at) && life.persisted.is_none());
        lost.map(|life| life.issued).min()
    };
    let is_torn = |new: usize, old: usize| match (there(new), lost(old)) {
        (Some(later), Some(earlier)) => new != old && earlier < later,
        _ => false,
    };
    let new = wanted
        .iter()
        .filter(|new| wanted.iter().any(|old| is_torn(**new, *old)));
    let old = wanted
        .iter()
        .filter(|old| wanted.iter().any(|new| is_torn(*new, **old)));
    let torn = Torn {
        new: new.copied().collect(),
        old: old.copied().collect(),
    };
    (!torn.new.is_empty()).then_some(torn)
}
