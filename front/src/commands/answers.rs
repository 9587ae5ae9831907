//! What every command needs: the answers of its files, the story of one, and what is said of a file that has no answer.

use super::options::{Command, Options};
use crate::case::Step;
use crate::desk::{self, programs::Programs, Given, Outcome, Unfit};
use crate::files::File;
use crate::messages::Trouble;
use crate::output;
use crate::story::{search::Search, Answer, Story};
use crate::tell::report;

/// The answers of all files that are cases, by their index; each is handed on as it comes. With a search the question is asked,
/// else the run is judged.
pub fn answers(
    programs: &Programs,
    search: Option<Search>,
    read: &[Result<Given, Unfit>],
    each: &mut dyn FnMut(usize, Outcome) -> Result<(), Trouble>,
) -> Result<(), Trouble> {
    let fit = read.iter().enumerate();
    let fit = fit.filter_map(|(i, one)| Some((i, one.as_ref().ok()?)));
    let (places, given): (Vec<usize>, Vec<&Given>) = fit.unzip();
    if given.is_empty() {
        return Ok(());
    }
    let mut placed = |i: usize, outcome| each(places[i], outcome);
    match search {
        Some(search) => desk::ask(programs, &given, search, &mut placed),
        None => desk::judge(programs, &given, &mut placed),
    }
}

/// The answers all together.
pub fn all_answers(
    programs: &Programs,
    search: Option<Search>,
    read: &[Result<Given, Unfit>],
) -> Result<Vec<Option<Outcome>>, Trouble> {
    let mut outcomes = vec![None; read.len()];
    answers(programs, search, read, &mut |i, outcome| {
        outcomes[i] = Some(outcome);
        Ok(())
    })?;
    Ok(outcomes)
}

/// What is asked the question, where one is.
pub fn search_of(options: &Options) -> Option<Search> {
    (options.command == Command::Ask).then_some(options.search())
}

pub fn story(
    programs: &Programs,
    given: &Given,
    answer: (Answer, Vec<Step>),
    search: Option<Search>,
) -> Result<Story, Trouble> {
    let mut stories = desk::stories(programs, vec![(given, answer.0, answer.1)], search)?;
    Ok(stories.remove(0))
}

/// Says on standard error why a file is no case.
pub fn say_unfit(file: &File, unfit: &Unfit) {
    match unfit {
        Unfit::Mistakes(mistakes) => output::say(&report::mistakes(&file.shown(), mistakes)),
        Unfit::Unread(trouble) => output::say(&format!("garluveni: {trouble}\n")),
    }
}

pub fn say_refused(given: &Given, outcome: Option<&Outcome>) {
    if let Some(Outcome::Refused(refused)) = outcome {
        output::say(&report::refused(&given.file, refused));
    }
}
