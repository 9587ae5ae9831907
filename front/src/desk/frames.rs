//! Frames for the program `batch` and for `lend`, the host that lends memory, and what their lines say. docs/FRAMES.md has both.

use super::records;
use crate::case::{Case, Step};
use crate::messages::Trouble;
use crate::sizes;
use crate::story::search::{self, Search};
use crate::story::{blocker::Place, state::State, Answer};

/// Reading looks at no byte behind the longest file and one record more, so that a longer file is answered by so many.
const MOST_INPUT: usize = sizes::LONGEST + sizes::LONGEST_RECORD;
const JUDGE: u32 = 2_147_483_648;
const QUESTION: u32 = JUDGE + 3;
const REMEMBER: u32 = JUDGE + 5;
const RECORD: usize = sizes::STEP_RECORD;

pub const BATCH: &str = "batch";
pub const LEND: &str = "lend";

#[derive(Clone, Debug, PartialEq, Eq)]
pub enum Asked {
    /// The answer, and the run that reaches.
    Answer(Answer, Vec<Step>),
    Refused {
        number: u32,
        offset: usize,
    },
}

/// The parts that the lines of both searches have: number, place and lent buffer.
type Parts<'a> = [&'a str; 3];

pub struct Judged {
    pub verdict: Verdict,
    pub full_length: usize,
    /// The state's bytes; of a case that is refused they are those of the empty case.
    bytes: Vec<u8>,
}

#[derive(Clone, Copy, Debug, PartialEq, Eq)]
pub enum Verdict {
    Legal(usize),
    Illegal {
        index: usize,
        rule: u32,
        blocker: Option<Place>,
    },
    Refused {
        number: u32,
        offset: usize,
    },
}

impl Judged {
    pub fn state(&self, case: &Case) -> State {
        State::of(&self.bytes, case)
    }
}

/// The program that answers the frames of a search.
pub fn program(search: Search) -> &'static str {
    match search {
        Search::Remember { .. } => LEND,
        Search::Walk { .. } => BATCH,
    }
}

pub fn question(input: &[u8], search: Search) -> Vec<u8> {
    let room = (sizes::STEPS * RECORD) as u32;
    match search {
        Search::Remember { states, bytes } => {
            let words = u32::try_from(bytes / 4).unwrap_or(u32::MAX);
            let mut out = frame(REMEMBER, input, room, states);
            out.extend(words.to_le_bytes());
            out
        }
        Search::Walk { runs } => frame(QUESTION, input, room, runs),
    }
}

pub fn judge(input: &[u8]) -> Vec<u8> {
    frame(JUDGE, input, 0, 0)
}

fn frame(job: u32, input: &[u8], third: u32, fourth: u32) -> Vec<u8> {
    let input = &input[..input.len().min(MOST_INPUT)];
    let head = [job, input.len() as u32, third, fourth];
    let mut out: Vec<u8> = head
        .iter()
        .flat_map(|number| number.to_le_bytes())
        .collect();
    out.extend(input);
    out
}

pub fn asked(line: &str, search: Search) -> Result<Asked, Trouble> {
    let odd = || odd_line(program(search), line);
    let ([number, place, buffer], states) = match search {
        Search::Remember { states, bytes } => {
            remembered(line, search::room(bytes).min(states.into()))?
        }
        Search::Walk { .. } => (fields(line).ok_or_else(odd)?, None),
    };
    let place: usize = place.parse().map_err(|_| odd())?;
    match number.parse().map_err(|_| odd())? {
        100 => {
            let run = run_in(buffer, place).ok_or_else(odd)?;
            Ok(Asked::Answer(Answer::Reached, run))
        }
        101 => Ok(Asked::Answer(Answer::Unreachable { states }, Vec::new())),
        102 => Ok(Asked::Answer(Answer::Undecided { states }, Vec::new())),
        number => Ok(Asked::Refused {
            number,
            offset: place,
        }),
    }
}

/// A line of the search that remembers, which covers `most` states at the most: what it shares with the other's, and how many states it counts.
fn remembered(line: &str, most: u64) -> Result<(Parts<'_>, Option<u32>), Trouble> {
    let odd = || odd_line(LEND, line);
    let [number, place, states, memory, buffer] = fields(line).ok_or_else(odd)?;
    if memory == "spoilt" {
        return Err(Trouble::Spoilt(LEND.to_string()));
    }
    let count: u32 = states.parse().map_err(|_| odd())?;
    // the start is a state, so that there is one to go through
    let (left, counts) = match number {
        "100" => ("zeros", 0..=0),
        "101" => ("zeros", 1..=most),
        "102" => ("zeros", 0..=most),
        _ => ("kept", 0..=0),
    };
    match (memory == left || memory == "-") && counts.contains(&count.into()) {
        true => Ok(([number, place, buffer], Some(count))),
        false => Err(odd()),
    }
}

/// The first so many steps of a lent buffer.
fn run_in(buffer: &str, count: usize) -> Option<Vec<Step>> {
    let bytes = bytes_of(buffer)?;
    let shown = bytes.get(..count * RECORD)?;
    let step = |record: &[u8]| records::step_in([record[4], record[5], record[6], record[7]]);
    Some(shown.chunks(RECORD).map(step).collect())
}

pub fn judged(line: &str) -> Result<Judged, Trouble> {
    let odd = || odd_line(BATCH, line);
    let ([number, place, _, full_length, state], blocker) = machine(line).ok_or_else(odd)?;
    let place = place.parse().map_err(|_| odd())?;
    let verdict = match number.parse().map_err(|_| odd())? {
        rule @ 21..=29 => Verdict::Illegal {
            index: place,
            rule,
            blocker,
        },
        // nothing is in the way of what is legal or refused
        _ if blocker.is_some() => return Err(odd()),
        103 => Verdict::Legal(place),
        number => Verdict::Refused {
            number,
            offset: place,
        },
    };
    let bytes = bytes_of(state)
        .filter(|bytes| bytes.len() == State::BYTES)
        .ok_or_else(odd)?;
    let full_length = full_length.parse().map_err(|_| odd())?;
    Ok(Judged {
        verdict,
        full_length,
        bytes,
    })
}

/// The parts of a line of the machine, and behind them the blocker's place, where there is one.
fn machine(line: &str) -> Option<([&str; 5], Option<Place>)> {
    if let Some(parts) = fields(line) {
        return Some((parts, None));
    }
    let (parts, place) = line.rsplit_once(' ')?;
    Some((fields(parts)?, Some(Place::read(place)?)))
}

fn fields<const COUNT: usize>(line: &str) -> Option<[&str; COUNT]> {
    line.split(' ').collect::<Vec<&str>>().try_into().ok()
}

fn bytes_of(hex: &str) -> Option<Vec<u8>> {
    let digit = |at: usize| {
        hex.as_bytes()
            .get(at)
            .and_then(|c| (*c as char).to_digit(16))
    };
    (0..hex.len())
        .step_by(2)
        .map(|at| Some((digit(at)? * 16 + digit(at + 1)?) as u8))
        .collect()
}

/// A line that is not understood; of a long one both ends, since the blocker's place stands behind the state.
pub fn odd_line(program: &str, line: &str) -> Trouble {
    const START: usize = 40;
    const END: usize = 12;
    let count = line.chars().count();
    let start: String = line.chars().take(START).collect();
    let end: String = line.chars().skip(count.saturating_sub(END)).collect();
    let shown = match count > START + END {
        true => format!("{start} .. {end}"),
        false => line.to_string(),
    };
    Trouble::OddLine(program.to_string(), shown)
}

#[cfg(test)]
mod tests {
    use super::*;

    fn line(front: &str, behind: &str) -> String {
        format!("{front} {}{behind}", "00".repeat(State::BYTES))
    }

    #[test]
    fn the_sixth_part_is_the_blockers_place() {
        let verdict = |line: &str| judged(line).ok().map(|one| one.verdict);
        let illegal = |index, rule, blocker| {
            Some(Verdict::Illegal {
                index,
                rule,
                blocker,
            })
        };
        let place = Place::read("Q1.0");
        assert!(place.is_some());
        assert_eq!(verdict(&line("28 6 3 9", " Q1.0")), illegal(6, 28, place));
        assert_eq!(verdict(&line("25 6 3 9", "")), illegal(6, 25, None));
        assert_eq!(verdict(&line("103 6 3 9", "")), Some(Verdict::Legal(6)));
        for odd in [" Q1.0 ", " ", " Q1", " 28", " Q1.0 Q1.0"] {
            assert_eq!(verdict(&line("28 6 3 9", odd)), None, "{odd}");
        }
        for front in ["103 6 3 9", "5 8 0 0"] {
            assert_eq!(verdict(&line(front, " Q1.0")), None, "{front}");
        }
    }
}
