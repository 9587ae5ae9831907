//! Several files at once: a line each, as the answers come, and a summary.

use super::answers::{answers, say_unfit, search_of};
use super::options::Options;
use super::statuses::{graver, status, NO_ANSWER};
use crate::desk::{programs::Programs, Given, Outcome, Unfit};
use crate::messages::Trouble;
use crate::output;
use crate::story::{Answer, Refusal};
use crate::tell::report;

struct Table<'a> {
    options: &'a Options,
    read: &'a [Result<Given, Unfit>],
    outcomes: Vec<Option<Outcome>>,
    /// How many files have their line.
    told: usize,
    gravest: u8,
    /// How often each answer was given, in the order of its first time.
    counts: Vec<(&'static str, usize)>,
}

pub fn tell(
    programs: &Programs,
    options: &Options,
    read: &[Result<Given, Unfit>],
) -> Result<u8, Trouble> {
    let mut table = Table {
        options,
        read,
        outcomes: vec![None; read.len()],
        told: 0,
        gravest: 0,
        counts: Vec::new(),
    };
    table.advance()?;
    answers(programs, search_of(options), read, &mut |i, outcome| {
        table.outcomes[i] = Some(outcome);
        table.advance()
    })?;
    let counts = table
        .counts
        .iter()
        .map(|(word, count)| format!("{count} {word}"));
    let counts: Vec<String> = counts.collect();
    let summary = format!("{} cases: {}\n", read.len(), counts.join(", "));
    output::print(summary.as_bytes())?;
    Ok(table.gravest)
}

impl Table<'_> {
    /// Tells the files whose line is known, in their order.
    fn advance(&mut self) -> Result<(), Trouble> {
        while let Some(read) = self.read.get(self.told) {
            let outcome = self.outcomes[self.told].as_ref();
            if read.is_ok() && outcome.is_none() {
                return Ok(());
            }
            let file = &self.options.files[self.told];
            if let Err(unfit) = read {
                say_unfit(file, unfit);
            }
            self.gravest = graver(self.gravest, outcome.map_or(NO_ANSWER, status));
            let (word, rest) = line(read, outcome);
            output::print(format!("{}: {word}{rest}\n", file.shown()).as_bytes())?;
            match self.counts.iter_mut().find(|(other, _)| *other == word) {
                Some((_, count)) => *count += 1,
                None => self.counts.push((word, 1)),
            }
            self.told += 1;
        }
        Ok(())
    }
}

/// The answer's word, and what more there is to say.
fn line(read: &Result<Given, Unfit>, outcome: Option<&Outcome>) -> (&'static str, String) {
    match (read, outcome) {
        (Err(Unfit::Mistakes(mistakes)), _) => {
            ("bad text", format!(", {}", report::many(mistakes.len())))
        }
        (_, Some(Outcome::Refused(Refusal { number, offset, .. }))) => {
            ("refused", format!(", number {number} at offset {offset}"))
        }
        (Ok(given), Some(Outcome::Answer(answer, run))) => {
            (answer.word(), more(given, *answer, run.len()))
        }
        _ => ("not read", String::new()),
    }
}

fn more(given: &Given, answer: Answer, steps: usize) -> String {
    match answer {
        Answer::Reached => format!(
            ", {}: {}",
            report::steps(steps),
            report::asked(&given.case(), " = ")
        ),
        Answer::Illegal {
            index,
            rule,
            blocker,
        } => {
            let blocker = blocker.map_or(String::new(), |place| format!(": {place} is in the way"));
            format!(
                ", step {} (index {index}) breaks rule {rule}{blocker}",
                index + 1
            )
        }
        Answer::Legal => format!(", {}", report::steps(steps)),
        Answer::Unreachable { states } | Answer::Undecided { states } => {
            let states = states.map_or(String::new(), |count| {
                format!(", {}", report::states(count))
            });
            format!("{states}: {}", report::asked(&given.case(), " = "))
        }
    }
}
