//! What stands in the way of an illegal step, in words: which entry, where it waits, what it has to do first, and what takes it away.

use super::run;
use crate::case::{Case, Step};
use crate::story::blocker::{find, Blocker, Place};
use crate::story::lives::{self, Life};
use crate::story::Story;
use crate::text::layout;

const NTH: [&str; 8] = [
    "first", "second", "third", "fourth", "fifth", "sixth", "seventh", "eighth",
];

/// The entry with its place, then the steps that take it away, where the judge passes some; nothing where no place is named.
pub fn sentences(story: &Story) -> Vec<String> {
    let lives = lives::lives(story);
    let Some(found) = find(story, &lives) else {
        return Vec::new();
    };
    let waits = waits(story, &lives[found.life], &found);
    let mut told = vec![format!("In the way ({}): {waits}.", found.place)];
    if !story.away.is_empty() {
        told.push(away(story, &found));
    }
    told
}

/// Which entry it is, where it waits, and what has to happen first.
pub fn waits(story: &Story, life: &Life, found: &Blocker) -> String {
    let case = &story.case;
    let entry = written(case, (life.thread as usize, life.instruction));
    let (place, first) = match found.place {
        Place::Buffer { thread, .. } => {
            (format!("in thread {thread}'s buffer"), "leave the buffer")
        }
        Place::Queue { line, .. } => (format!("in {}", run::queue(case, line as usize)), "persist"),
    };
    let marker = match (found.place, life.kind.word()) {
        (Place::Queue { .. }, None) => "as a marker ",
        _ => "",
    };
    format!(
        "thread {}'s '{entry}', issued in step {}, still waits {marker}{place}, {} in it: it has to {first} before {}",
        life.thread,
        life.issued + 1,
        nth(found.place.position()),
        held_back(story, found)
    )
}

/// An instruction as the text writes it.
pub fn written(case: &Case, (thread, index): (usize, usize)) -> String {
    let one = case.threads[thread].get(index);
    one.map_or(String::new(), |one| layout::instruction(case, one))
}

/// What the illegal step was to do.
fn held_back(story: &Story, found: &Blocker) -> String {
    let name = name(story, found);
    match found.step {
        Step::Issue { .. } => format!("the {name} may be issued"),
        _ => format!("the {name} may leave"),
    }
}

/// The instruction that is held back, by its first word.
fn name(story: &Story, found: &Blocker) -> String {
    let words = written(&story.case, found.held);
    words.split(' ').next().unwrap_or("").to_string()
}

fn nth(position: usize) -> String {
    match NTH.get(position) {
        Some(word) => word.to_string(),
        None => format!("number {}", position + 1),
    }
}

/// The steps as a text has them; and where entries leave before the one that was to move, it moves up.
fn away(story: &Story, found: &Blocker) -> String {
    let steps = format!("This takes it away: {}.", steps(story));
    let moves = |step: &&Step| matches!(step, Step::Move { .. });
    let left = story.away.iter().filter(moves).count();
    match found.step {
        Step::Move { position, .. } if left > 0 => {
            let name = name(story, found);
            let position = (position as usize).saturating_sub(left);
            format!("{steps} The {name} is then at position {position}.")
        }
        _ => steps,
    }
}

/// A step that comes again at once is said once.
fn steps(story: &Story) -> String {
    let mut groups: Vec<(Step, usize)> = Vec::new();
    for step in &story.away {
        match groups.last_mut() {
            Some((last, count)) if last == step => *count += 1,
            _ => groups.push((*step, 1)),
        }
    }
    let times = |(step, count): &(Step, usize)| {
        let step = layout::step(&story.case, step);
        match count {
            1 => format!("'{step}'"),
            2 => format!("'{step}' twice"),
            _ => format!("'{step}' {count} times"),
        }
    };
    let groups: Vec<String> = groups.iter().map(times).collect();
    groups.join(", then ")
}
