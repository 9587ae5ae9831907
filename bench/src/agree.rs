//! Do both builds of the library and the plain sides say the same of a case?

use crate::case::Case;
use crate::library::{self, Library, Remembering, BEFORE, NOW, STATE_WORDS};
use crate::replay;
use crate::rows::{Arrays, Vectors};
use crate::walk::{self, Answer, UNDECIDED, UNREACHABLE};

/// The judge's answer to a legal run, with the number of its steps.
const LEGAL: u32 = 103;

/// What stands in the lent bytes before a call, to see what was stored, and in the lent memory, to see it cleared.
const UNTOUCHED: u8 = 0xEE;
const JUNK: u32 = 0xEEEE_EEEE;

/// Of a run that is legal to its end.
pub fn all_pass(case: &Case) -> Result<(), String> {
    let steps = case.steps.len() as u32;
    let passed = [replay::legal_steps::<Vectors>(case), replay::legal_steps::<Arrays>(case)];
    if passed != [steps, steps] {
        return Err(format!("of {} steps the plain machines take {:?}", steps, passed));
    }
    let said = [&NOW, &BEFORE].map(|library| library.judge(&case.bytes()));
    let expected = LEGAL + 256 * steps;
    if said != [expected, expected] {
        return Err(format!("the judges say {:?} and not {}", said, expected));
    }
    Ok(())
}

pub fn all_agree(case: &Case, answer: &Answer) -> Result<(), String> {
    searches_agree(&[walk::question::<Vectors>(case)], answer)?;
    libraries_say(case, case.budget, answer)?;
    just_decided(answer, case.budget, |budget, answer| libraries_say(case, budget, answer))
}

/// Of the distinct states, of which as many as the budget were looked at.
pub fn all_remember(case: &Case, others: &[Answer], answer: &Answer, budget: u32) -> Result<(), String> {
    searches_agree(others, answer)?;
    just_decided(answer, budget, |covered, answer| {
        for (name, build) in [("now", &NOW), ("before", &BEFORE)] {
            if let Some(build) = &build.remembering {
                recalls(build, case, covered, answer)
                    .map_err(|difference| format!("{}: {}", name, difference))?;
            }
        }
        Ok(())
    })
}

fn searches_agree(others: &[Answer], answer: &Answer) -> Result<(), String> {
    match others.iter().find(|other| *other != answer) {
        Some(other) => Err(format!("the plain searches differ: {:?} and {:?}", other, answer)),
        None => Ok(()),
    }
}

/// As many as the plain searches visited decide it, and one fewer does not.
fn just_decided(
    answer: &Answer,
    budget: u32,
    say: impl Fn(u32, &Answer) -> Result<(), String>,
) -> Result<(), String> {
    say(answer.visited, answer)?;
    if answer.number == UNDECIDED {
        let used_up = answer.visited == budget;
        return used_up.then_some(()).ok_or(format!("undecided after {}", answer.visited));
    }
    let short = Answer { number: UNDECIDED, visited: answer.visited - 1, steps: Vec::new() };
    say(short.visited, &short)
}

pub fn libraries_say(case: &Case, budget: u32, answer: &Answer) -> Result<(), String> {
    says(&NOW, case, budget, answer)?;
    says(&BEFORE, case, budget, answer).map_err(|difference| format!("before: {}", difference))
}

fn says(library: &Library, case: &Case, budget: u32, answer: &Answer) -> Result<(), String> {
    stored_as(case, answer, 0, |file, lent| u64::from(library.question(file, lent, budget)))
        .map_err(|difference| format!("at budget {} {}", budget, difference))
}

/// So many states are covered once by the budget, with memory for one more, and once by the memory, with a word too few
/// for one more.
fn recalls(build: &Remembering, case: &Case, covered: u32, answer: &Answer) -> Result<(), String> {
    let all = if answer.number == UNREACHABLE { answer.visited } else { 0 };
    let more = STATE_WORDS * (covered as usize + 1);
    for (words, budget) in [(more, covered), (more - 1, u32::MAX)] {
        let mut memory = vec![JUNK; words];
        stored_as(case, answer, 0, |file, lent| u64::from(build.remember(file, lent, &mut memory, budget)))
            .and_then(|()| cleared(&mut memory))
            .and_then(|()| {
                stored_as(case, answer, all, |file, lent| build.counting(file, lent, &mut memory, budget))
            })
            .and_then(|()| cleared(&mut memory))
            .map_err(|difference| format!("with {} words and budget {} {}", words, budget, difference))?;
    }
    Ok(())
}

/// All of the memory is 0; for the next call there is junk in it again.
fn cleared(memory: &mut [u32]) -> Result<(), String> {
    let is_cleared = memory.iter().all(|word| *word == 0);
    memory.fill(JUNK);
    is_cleared.then_some(()).ok_or(String::from("the library leaves words in the memory"))
}

/// The library's number, with so many states above it, and the bytes it stores are those of the answer.
fn stored_as(
    case: &Case,
    answer: &Answer,
    states: u32,
    ask: impl FnOnce(&[u8], &mut [u8]) -> u64,
) -> Result<(), String> {
    let mut lent = vec![UNTOUCHED; library::room(case.full_length())];
    let mut stored: Vec<u8> = answer.steps.iter().flat_map(|step| step.record()).collect();
    stored.resize(lent.len(), UNTOUCHED);
    let told = ask(&case.bytes(), &mut lent);
    let (packed, counted) = (told as u32, (told >> 32) as u32);
    let expected = answer.number + 256 * answer.steps.len() as u32;
    if (packed, counted) != (expected, states) {
        return Err(format!(
            "the library says {}, {} states, and not {}, {}",
            packed, counted, expected, states
        ));
    }
    if lent != stored {
        return Err(String::from("the library stores other bytes"));
    }
    Ok(())
}
