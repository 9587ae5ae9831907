//! The steps that take a blocker away: they are tried on the proved judge, and kept only where it passes them.

use super::frames::{self, Judged, Verdict};
use super::programs::Programs;
use super::records;
use super::Task;
use crate::case::Step;
use crate::messages::Trouble;
use crate::sizes;
use crate::story::blocker::{self, Place};
use crate::story::lives::{self, Kind};
use crate::story::Story;

/// Steps to try behind the legal ones of a story.
struct Trial {
    story: usize,
    steps: Vec<Step>,
    /// The cache line to whose queue they bring a marker that has to persist too.
    marker: Option<usize>,
}

/// For each story that has a blocker.
pub fn find(programs: &Programs, stories: &mut [Story]) -> Result<(), Trouble> {
    let all = stories.iter().enumerate();
    let mut trials: Vec<Trial> = all.filter_map(|(i, one)| first(i, one)).collect();
    while !trials.is_empty() {
        trials = round(programs, stories, trials)?;
    }
    Ok(())
}

fn first(index: usize, story: &Story) -> Option<Trial> {
    let lives = lives::lives(story);
    let found = blocker::find(story, &lives)?;
    let life = &lives[found.life];
    // an xchg, cmpxchg or mfence that waits for a flush-opt waits for its marker next
    let marker = match (found.place, found.step, life.kind) {
        (Place::Buffer { .. }, Step::Issue { .. }, Kind::FlushOpt { .. }) => life.queue,
        _ => None,
    };
    Some(Trial {
        story: index,
        steps: straight(found.place),
        marker,
    })
}

/// What takes the entry away unless something is in its way too: those before it go first, each from the front.
fn straight(place: Place) -> Vec<Step> {
    let step = match place {
        Place::Buffer { thread, .. } => Step::Move {
            thread,
            position: 0,
        },
        Place::Queue { line, .. } => Step::Persist { line },
    };
    vec![step; place.position() + 1]
}

/// Shows the judge each trial; those that it does not pass are given back longer, to be tried again.
fn round(
    programs: &Programs,
    stories: &mut [Story],
    trials: Vec<Trial>,
) -> Result<Vec<Trial>, Trouble> {
    let shown = |trial: &Trial| {
        let story = &stories[trial.story];
        let run = [&story.run[..super::legal(story)], &trial.steps].concat();
        frames::judge(&records::with_run(&story.case, &run))
    };
    let label = |trial: &Trial| super::telling(&stories[trial.story]);
    let task = Task {
        program: frames::BATCH,
        input: trials.iter().flat_map(shown).collect(),
        labels: trials.iter().map(label).collect(),
    };
    let mut judged = Vec::new();
    task.done(programs, &mut |_, line| {
        judged.push(frames::judged(line)?);
        Ok(())
    })?;
    let pairs = trials.into_iter().zip(judged);
    Ok(pairs
        .filter_map(|(trial, judged)| settle(&mut stories[trial.story], trial, &judged))
        .collect())
}

/// A trial that the judge passes is the story's, once no marker is left; before a step that waits for a queue come the persists that it
/// waits for.
fn settle(story: &mut Story, mut trial: Trial, judged: &Judged) -> Option<Trial> {
    let legal = super::legal(story);
    let end = legal + trial.steps.len();
    match (judged.verdict, trial.marker) {
        (Verdict::Legal(count), None) if count == end => {
            story.away = trial.steps;
            return None;
        }
        (Verdict::Legal(count), Some(line)) if count == end => {
            // it has just joined, so that it is the last
            let waits = judged.state(&story.case).queues[line].len();
            let line = line as u8;
            trial.steps.extend(vec![Step::Persist { line }; waits]);
            trial.marker = None;
        }
        (Verdict::Illegal { index, blocker, .. }, _) => {
            let place = blocker.filter(|place| matches!(place, Place::Queue { .. }))?;
            let at = index.checked_sub(legal)?.min(trial.steps.len());
            trial.steps.splice(at..at, straight(place));
        }
        _ => return None,
    }
    (legal + trial.steps.len() <= sizes::STEPS).then_some(trial)
}

#[cfg(test)]
mod tests {
    use super::*;
    use crate::story::{blocker::tests::blocked, state::State};

    const PERSIST: Step = Step::Persist { line: 0 };
    const MOVE: Step = Step::Move {
        thread: 1,
        position: 0,
    };

    fn place(text: &str) -> Place {
        Place::read(text).unwrap()
    }

    /// What becomes of a trial with these steps once the judge has said so: the steps to try next, and those that are told.
    fn settled(steps: &[Step], said: &str) -> (Option<Vec<Step>>, Vec<Step>) {
        let mut story = blocked(place("Q0.0"));
        let (front, behind) = said.split_once('|').unwrap();
        let line = format!("{front} {}{behind}", "00".repeat(State::BYTES));
        let judged = frames::judged(&line).ok().unwrap();
        let trial = Trial {
            story: 0,
            steps: steps.to_vec(),
            marker: None,
        };
        let next = settle(&mut story, trial, &judged).map(|trial| trial.steps);
        (next, story.away)
    }

    #[test]
    fn those_before_it_go_first() {
        assert_eq!(straight(place("Q0.2")), [PERSIST; 3]);
        assert_eq!(straight(place("B1.1")), [MOVE; 2]);
        let first = first(7, &blocked(place("Q0.0"))).unwrap();
        assert_eq!((first.story, first.steps), (7, vec![PERSIST]));
    }

    #[test]
    fn only_what_the_judge_passes_is_told() {
        assert_eq!(settled(&[MOVE], "103 6 0 6|"), (None, vec![MOVE]));
        assert_eq!(settled(&[MOVE], "103 5 0 6|"), (None, vec![]));
        assert_eq!(settled(&[MOVE], "25 5 0 6|"), (None, vec![]));
        assert_eq!(settled(&[MOVE], "26 5 0 6| B1.0"), (None, vec![]));
        assert_eq!(settled(&[MOVE], "9 0 0 6|"), (None, vec![]));
    }

    #[test]
    fn what_a_step_waits_for_persists_before_it() {
        let next = Some(vec![MOVE, PERSIST, PERSIST, MOVE]);
        assert_eq!(settled(&[MOVE; 2], "28 6 0 6| Q0.1"), (next, vec![]));
        // a program that never passes anything does not keep the front door trying
        let full = [PERSIST; sizes::STEPS - 5];
        assert_eq!(settled(&full, "28 9 0 6| Q0.0").0, None);
        assert!(settled(&full[1..], "28 9 0 6| Q0.0").0.is_some());
    }
}
