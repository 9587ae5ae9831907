//! The answer to one case in words.

use super::blocker;
use super::cut::{self, Place};
use super::rules;
use super::run;
use crate::case::{Case, Instruction};
use crate::messages::Mistake;
use crate::sizes;
use crate::story::search::{limit, Limit, Search};
use crate::story::{Answer, Refusal, Story};
use crate::text::layout;

/// What a newcomer must know to follow a run.
const LEGEND: &str =
    "A store waits in its thread's buffer, then in its location's queue; only what has persisted outlasts a power cut.";

/// The same where locations share a cache line.
const LEGEND_OF_LINES: &str =
    "A store waits in its thread's buffer, then in its cache line's queue; only what has persisted outlasts a power cut.";

/// So many mistakes of a text are told.
pub const MOST_MISTAKES: usize = 20;

/// The mistakes of a text, each with its place.
pub fn mistakes(file: &str, mistakes: &[Mistake]) -> String {
    let told = mistakes.iter().take(MOST_MISTAKES);
    let mut lines: String = told
        .map(|one| format!("{file}:{}:{}: {}\n", one.line, one.column, one.what))
        .collect();
    if mistakes.len() > MOST_MISTAKES {
        lines += &format!(
            "{file}: and {} more\n",
            many(mistakes.len() - MOST_MISTAKES)
        );
    }
    lines
}

pub fn many(mistakes: usize) -> String {
    match mistakes {
        1 => "1 mistake".to_string(),
        _ => format!("{mistakes} mistakes"),
    }
}

pub fn refused(file: &str, refused: &Refusal) -> String {
    let meaning = rules::refusal(refused);
    let Refusal { number, offset, .. } = refused;
    format!("{file}\nREFUSED: number {number}, the record at offset {offset}.\nNumber {number}: {meaning}.\n")
}

/// A number with commas.
fn commas(number: u64) -> String {
    let digits = number.to_string();
    let mut out = String::new();
    for (i, digit) in digits.chars().enumerate() {
        if i > 0 && (digits.len() - i) % 3 == 0 {
            out.push(',');
        }
        out.push(digit);
    }
    out
}

/// The wanted words and passed counts, or that nothing is wanted; `is` stands between a name and its word.
pub fn asked(case: &Case, is: &str) -> String {
    match (wanted_words(case, is), issued(case)) {
        (None, None) => "nothing is wanted".to_string(),
        (Some(words), None) => words,
        (None, Some(issued)) => issued,
        (Some(words), Some(issued)) => format!("{words} with {issued}"),
    }
}

/// What a power cut can do or not, behind "can".
pub fn deed(case: &Case, is: &str) -> String {
    match (wanted_words(case, is), issued(case)) {
        (None, None) => "come at once, and nothing is wanted".to_string(),
        (None, Some(issued)) => format!("come with {issued}"),
        (Some(_), _) => format!("leave {}", asked(case, is)),
    }
}

fn wanted_words(case: &Case, is: &str) -> Option<String> {
    let wants = case.names.iter().zip(&case.wants);
    let wants = wants.filter_map(|(name, want)| want.map(|word| format!("{name}{is}{word}")));
    let wants: Vec<String> = wants.collect();
    (!wants.is_empty()).then(|| wants.join(", "))
}

fn issued(case: &Case) -> Option<String> {
    let passed = case
        .passed
        .iter()
        .enumerate()
        .filter(|(_, count)| **count != 0);
    let passed = passed.map(|(thread, count)| format!("{count} of thread {thread}'s instructions"));
    let passed: Vec<String> = passed.collect();
    (!passed.is_empty()).then(|| format!("at least {} issued", passed.join(" and ")))
}

pub fn words(story: &Story) -> String {
    let mut lines = vec![story.file.clone()];
    lines.extend(headline(story));
    lines.extend(shared(&story.case));
    if !story.run.is_empty() || matches!(story.answer, Answer::Reached | Answer::Legal) {
        lines.push(legend(&story.case).to_string());
        lines.push(String::new());
        lines.extend(told(story));
        lines.push(String::new());
        lines.extend(ending(story));
    }
    lines.push(String::new());
    lines.push(source(story));
    if story.search.is_some() && !story.case.run.is_empty() {
        lines.push(
            "The run in the file was not looked at: './garluveni judge' judges it.".to_string(),
        );
    }
    lines.join("\n") + "\n"
}

fn legend(case: &Case) -> &'static str {
    match case.has_shared() {
        true => LEGEND_OF_LINES,
        false => LEGEND,
    }
}

/// A sentence for each cache line that several locations share.
fn shared(case: &Case) -> Vec<String> {
    let lines = case.by_line().into_iter();
    let shared = lines.filter(|locations| locations.len() > 1);
    let names = |locations: Vec<usize>| {
        let all: Vec<&str> = locations
            .iter()
            .map(|at| case.names[*at].as_str())
            .collect();
        let (last, rest) = all.split_last().unwrap_or((&"", &[]));
        format!("{} and {last}", rest.join(", "))
    };
    shared
        .map(|locations| {
            format!(
                "{} share a cache line, and with it a queue: what joins first persists first.",
                names(locations)
            )
        })
        .collect()
}

fn headline(story: &Story) -> Vec<String> {
    let deed = deed(&story.case, " = ");
    match story.answer {
        Answer::Reached => vec![format!("REACHED: a power cut can {deed}.")],
        Answer::Unreachable { .. } => vec![
            format!("UNREACHABLE: no power cut can {deed}."),
            gone_through(story),
        ],
        Answer::Undecided { states } => vec![
            format!(
                "UNDECIDED: none of the first {} shows that a power cut can {deed}.",
                gone(story.search, states)
            ),
            more(story.search, states),
        ],
        Answer::Legal if story.run.is_empty() => {
            vec!["LEGAL: the file has no run, and the empty run is legal.".to_string()]
        }
        Answer::Legal => vec![format!("LEGAL: the run, {}.", steps(story.run.len()))],
        Answer::Illegal { index, rule, .. } => {
            let mut lines = vec![
                format!(
                    "ILLEGAL: step {} of the run (index {index}) breaks rule {rule}.",
                    index + 1
                ),
                rules::sentence(&story.case, rule),
            ];
            lines.extend(blocker::sentences(story));
            lines
        }
    }
}

/// What was gone through, and how long runs are: one step shorter for each compare that fails.
fn gone_through(story: &Story) -> String {
    let full = steps(story.full_length);
    let (every, runs) = match story.search {
        Some(Search::Walk { .. }) => (
            "Every run of this program",
            ["the longest", "those that end"],
        ),
        _ => (
            "Every state that this program can be in",
            ["the longest runs", "runs that end"],
        ),
    };
    let [longest, ended] = runs;
    let mut code = story.case.threads.iter().flatten();
    match code.any(|one| matches!(one, Instruction::Compare { .. })) {
        true => format!(
            "{every} was gone through; {ended} have {full}, one less for each cmpxchg that fails."
        ),
        false => format!("{every} was gone through; {longest} have {full}."),
    }
}

/// What a search that did not decide has gone through.
fn gone(search: Option<Search>, covered: Option<u32>) -> String {
    match search {
        Some(Search::Walk { runs }) => format!("{} runs", commas(runs.into())),
        _ => states(covered.unwrap_or(0)),
    }
}

/// That there is more than was gone through, and what would go on.
fn more(search: Option<Search>, covered: Option<u32>) -> String {
    let (more, may) = match search {
        Some(Search::Remember { states, bytes }) => {
            ("states", beyond(covered.unwrap_or(0), states, bytes))
        }
        _ => (
            "runs",
            "A larger --budget, up to 4,294,967,295, or a smaller program may tell.".to_string(),
        ),
    };
    format!("There are more {more}, so that is neither yes nor no. {may}")
}

/// What kept the search that remembers from more states.
fn beyond(covered: u32, states: u32, bytes: u64) -> String {
    let lent = size(bytes);
    match limit(covered, states, bytes) {
        Limit::States => "A larger --states, up to 4,294,967,295, or a smaller program may tell.".to_string(),
        Limit::Both => format!("The lent memory, {lent}, has room for just as many as --states says: more of both, or a smaller program may tell."),
        Limit::Memory if bytes == sizes::MOST_MEMORY => {
            format!("The lent memory, {lent}, has room for no more, and is the most that can be lent: a smaller program may tell.")
        }
        Limit::Memory => {
            format!("The lent memory, {lent}, has room for no more: a larger --memory, up to 16G, or a smaller program may tell.")
        }
        Limit::Machine => {
            "This machine lends no more than half of its memory: one that has more, or a smaller program may tell.".to_string()
        }
    }
}

/// Bytes in the largest unit that makes a whole number of them.
fn size(bytes: u64) -> String {
    let units = [(30, "GiB"), (20, "MiB"), (10, "KiB"), (0, "bytes")];
    let whole = units.iter().find(|(power, _)| bytes % (1 << power) == 0);
    whole.map_or(String::new(), |(power, unit)| {
        format!("{} {unit}", commas(bytes >> power))
    })
}

pub fn states(count: u32) -> String {
    match count {
        1 => "1 distinct state".to_string(),
        _ => format!("{} distinct states", commas(count.into())),
    }
}

pub fn steps(count: usize) -> String {
    match count {
        1 => "1 step".to_string(),
        _ => format!("{count} steps"),
    }
}

/// The run step by step, with what waits where behind each.
fn told(story: &Story) -> Vec<String> {
    let case = &story.case;
    let mut lines = Vec::new();
    // the columns of a step's number, and those before its sentence
    let number = story.run.len().to_string().len().max(2);
    let margin = number + 11;
    if let Some(start) = story.states.first() {
        let memory = run::memory(case, start);
        lines.push(format!("{:<margin$}memory: {memory}", "  at first"));
    }
    let told = run::sentences(story);
    for (i, sentence) in told.iter().enumerate() {
        let (before, after) = (&story.states[i], &story.states[i + 1]);
        lines.push(format!(
            "  {:>number$}  {:<6} {sentence}.",
            i + 1,
            layout::short_step(&story.run[i])
        ));
        let waiting = run::waiting(case, after);
        lines.push(format!("{:margin$}waiting: {waiting}", ""));
        if before.words != after.words {
            let memory = run::memory(case, after);
            lines.push(format!("{:margin$}memory: {memory}", ""));
        }
    }
    if let Answer::Illegal { index, .. } = story.answer {
        let step = layout::short_step(&story.run[index]);
        let attempt = run::attempt(story, index);
        lines.push(format!("  {:>number$}  {step:<6} {attempt}.", index + 1));
    }
    lines
}

fn ending(story: &Story) -> Vec<String> {
    let end = story
        .states
        .last()
        .map_or(String::new(), |state| run::memory(&story.case, state));
    match story.answer {
        Answer::Illegal { .. } => vec![format!("Memory before that step: {end}.")],
        Answer::Legal => vec![format!("A power cut behind the last step leaves: {end}.")],
        _ => {
            let places = cut::places(story);
            let mut lines = vec![format!("The power goes. Memory holds: {end}.")];
            lines.extend(places.iter().filter_map(|place| wanted(story, place)));
            lines.extend(passed(story));
            lines.extend(torn(story, &places));
            lines
        }
    }
}

fn wanted(story: &Story, place: &Place) -> Option<String> {
    let word = story.case.wants[place.at]?;
    let name = &story.case.names[place.at];
    let lost = match place.lost.is_empty() {
        true => String::new(),
        false => format!("; not in memory: {}", place.lost.join(", ")),
    };
    Some(format!("  wanted {name} = {word}: {}{lost}", place.from))
}

fn passed(story: &Story) -> Vec<String> {
    let Some(end) = story.states.last() else {
        return Vec::new();
    };
    let asked = story
        .case
        .passed
        .iter()
        .enumerate()
        .filter(|(_, count)| **count != 0);
    asked
        .map(|(thread, count)| {
            let (issued, all) = (end.issued[thread], story.case.threads[thread].len());
            let still: Vec<String> = end.buffers[thread]
                .iter()
                .map(|entry| run::shown(&story.case, entry))
                .collect();
            let still = match still.is_empty() {
                true => "nothing waits in its buffer".to_string(),
                false => format!("still in its buffer: {}", still.join(", ")),
            };
            format!(
                "  passed {thread} {count}: thread {thread} has issued {issued} of {all}; {still}"
            )
        })
        .collect()
}

fn torn(story: &Story, places: &[Place]) -> Option<String> {
    let torn = cut::torn(story)?;
    let names = &story.case.names;
    let new = torn
        .new
        .iter()
        .map(|at| format!("{} = {}", names[*at], places[*at].word));
    let new = new.collect::<Vec<String>>().join(", ");
    let old = torn.old.iter().map(|at| names[*at].as_str());
    let old = old.collect::<Vec<&str>>().join(", ");
    let is = if torn.new.len() == 1 { "is" } else { "are" };
    Some(format!(
        "The torn row: {new} {is} in memory, but what was issued to {old} earlier is not."
    ))
}

fn source(story: &Story) -> String {
    let search = match story.search {
        None => return "Judged by the proved judge; this front door only tells it.".to_string(),
        Some(Search::Walk { runs }) => {
            format!(", within a budget of {} runs", commas(runs.into()))
        }
        Some(Search::Remember { .. }) => format!(" that remembers: {}", met(story.answer)),
    };
    format!("Answered by the proved search{search}; this front door only tells it.")
}

/// What the search that remembers has met.
fn met(answer: Answer) -> String {
    match answer {
        Answer::Unreachable { states: all } => {
            format!("{}, all of them gone through", states(all.unwrap_or(0)))
        }
        Answer::Undecided { states: first } => {
            let first = states(first.unwrap_or(0));
            format!("{first} gone through, and not all that there are")
        }
        _ => "the run leads to the first state that shows it".to_string(),
    }
}
