//! What stands in the way of an illegal step: its place, as the proved judge names it, and the entry that the run has there.

use super::lives::{self, Life};
use super::Story;
use crate::case::Step;
use std::fmt;

/// Where an entry stands: in which buffer or queue, and at which position from 0, the oldest.
#[derive(Clone, Copy, Debug, PartialEq, Eq)]
pub enum Place {
    Buffer { thread: u8, position: u8 },
    Queue { line: u8, position: u8 },
}

impl Place {
    /// A place as the programs print it, and nothing else.
    pub fn read(text: &str) -> Option<Place> {
        let (which, position) = text.get(1..)?.split_once('.')?;
        let (which, position) = (which.parse().ok()?, position.parse().ok()?);
        let place = match text.as_bytes()[0] {
            b'B' => Place::Buffer {
                thread: which,
                position,
            },
            b'Q' => Place::Queue {
                line: which,
                position,
            },
            _ => return None,
        };
        // no sign and no zero in front: a number is printed in one way
        (place.to_string() == text).then_some(place)
    }

    pub fn position(self) -> usize {
        match self {
            Place::Buffer { position, .. } | Place::Queue { position, .. } => position as usize,
        }
    }

    /// The entries of that buffer or queue, so many steps behind the start, the oldest first.
    fn row(self, lives: &[Life], steps: usize) -> Vec<usize> {
        match self {
            Place::Buffer { thread, .. } => lives::buffer(lives, thread as usize, steps),
            Place::Queue { line, .. } => lives::queue(lives, line as usize, steps),
        }
    }
}

impl fmt::Display for Place {
    fn fmt(&self, out: &mut fmt::Formatter) -> fmt::Result {
        match self {
            Place::Buffer { thread, position } => write!(out, "B{thread}.{position}"),
            Place::Queue { line, position } => write!(out, "Q{line}.{position}"),
        }
    }
}

/// The entry in the way, and what it holds back.
pub struct Blocker {
    pub place: Place,
    /// The entry, by its index among the lives.
    pub life: usize,
    /// The step that is not possible, and its instruction: the thread, and the index there.
    pub step: Step,
    pub held: (usize, usize),
}

/// None where the judge names no place; and where the run has no entry there, or the step is no instruction's.
pub fn find(story: &Story, lives: &[Life]) -> Option<Blocker> {
    let place = story.answer.blocker()?;
    let legal = story.states.len().checked_sub(1)?;
    let step = *story.run.get(legal)?;
    let row = place.row(lives, legal);
    let held = match step {
        Step::Issue { thread } => {
            let issued = *story.states[legal].issued.get(thread as usize)?;
            (thread as usize, issued)
        }
        Step::Move { thread, position } => {
            let row = lives::buffer(lives, thread as usize, legal);
            let life = &lives[*row.get(position as usize)?];
            (thread as usize, life.instruction)
        }
        Step::Persist { .. } => return None,
    };
    Some(Blocker {
        place,
        life: *row.get(place.position())?,
        step,
        held,
    })
}

/// Whether the place that the judge names, if any, is one where the run has an entry.
pub fn agrees(story: &Story) -> bool {
    story.answer.blocker().is_none() || find(story, &lives::lives(story)).is_some()
}

#[cfg(test)]
pub mod tests {
    use super::*;
    use crate::case::Instruction;
    use crate::story::lives::tests::{one_line, outage};
    use crate::story::Answer;

    /// The outage's run, and then an mfence while the limit still waits in its queue: a place and a rule are put in by hand.
    pub fn blocked(place: Place) -> Story {
        let mut story = outage();
        story.case.threads[0].push(Instruction::Mfence);
        story.run.push(Step::Issue { thread: 0 });
        story.answer = Answer::Illegal {
            index: 5,
            rule: 23,
            blocker: Some(place),
        };
        story
    }

    /// The same on one cache line, where both words still wait in the queue.
    pub fn blocked_line() -> Story {
        let place = Place::Queue {
            line: 0,
            position: 1,
        };
        let mut story = one_line();
        story.run.truncate(4);
        story.states.truncate(5);
        story.run.push(Step::Issue { thread: 0 });
        story.case.threads[0].push(Instruction::Mfence);
        story.answer = Answer::Illegal {
            index: 4,
            rule: 23,
            blocker: Some(place),
        };
        story.away = vec![Step::Persist { line: 0 }; 2];
        story
    }

    #[test]
    fn a_place_is_read_as_it_is_printed() {
        let buffer = Place::Buffer {
            thread: 0,
            position: 2,
        };
        let queue = Place::Queue {
            line: 15,
            position: 63,
        };
        for (text, place) in [("B0.2", buffer), ("Q15.63", queue)] {
            assert_eq!(Place::read(text), Some(place));
            assert_eq!(place.to_string(), text);
        }
        let odd = [
            "", "B", "Q1", "B0.", "Q.0", "b0.0", "X0.0", "B0,0", "B+0.0", "Q01.0", "Q0.00",
            "Q0.256", "B-1.0", "B0.0.0", "é0.0",
        ];
        for text in odd {
            assert_eq!(Place::read(text), None, "{text}");
        }
    }

    #[test]
    fn the_blocker_is_the_entry_at_its_place() {
        let story = blocked(Place::Queue {
            line: 0,
            position: 0,
        });
        let found = find(&story, &lives::lives(&story)).map(|one| (one.life, one.held));
        assert_eq!(found, Some((0, (0, 2))));
        assert!(agrees(&story));
        let story = blocked_line();
        let found = find(&story, &lives::lives(&story)).map(|one| one.life);
        assert_eq!(found, Some(1));
    }

    #[test]
    fn a_place_where_nothing_stands_does_not_agree() {
        for text in ["Q0.1", "Q1.0", "Q9.0", "B0.0", "B3.0"] {
            let place = Place::read(text).unwrap();
            assert!(!agrees(&blocked(place)), "{text}");
        }
        let mut story = blocked(Place::Queue {
            line: 0,
            position: 0,
        });
        story.run[5] = Step::Persist { line: 0 };
        assert!(!agrees(&story));
    }
}
