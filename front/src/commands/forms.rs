//! The forms other than words: JSON, what the programs print themselves, records, text.

use super::answers::{all_answers, say_refused, say_unfit, search_of};
use super::options::{self, Command, Options};
use super::statuses::{graver, raw_status, status, NO_ANSWER};
use crate::desk::{self, frames, programs::Programs, Given, Outcome, Unfit};
use crate::files::File;
use crate::messages::Trouble;
use crate::output;
use crate::story::{search::Search, Story};
use crate::tell::objects;
use crate::text::layout;

/// An object for each file.
pub fn json(
    programs: &Programs,
    options: &Options,
    read: &[Result<Given, Unfit>],
) -> Result<u8, Trouble> {
    let search = search_of(options);
    let outcomes = all_answers(programs, search, read)?;
    let answered = read.iter().zip(&outcomes).filter_map(|pair| match pair {
        (Ok(given), Some(Outcome::Answer(answer, run))) => Some((given, *answer, run.clone())),
        _ => None,
    });
    let answered: Vec<_> = answered.collect();
    let stories = match answered.is_empty() {
        true => Vec::new(),
        false => desk::stories(programs, answered, search)?,
    };
    let mut stories = stories.iter();
    let mut gravest = 0;
    let mut lines = String::new();
    for ((file, one), outcome) in options.files.iter().zip(read).zip(&outcomes) {
        gravest = graver(gravest, outcome.as_ref().map_or(NO_ANSWER, status));
        lines += &json_line(options, file, one, outcome.as_ref(), &mut stories);
    }
    output::print(lines.as_bytes())?;
    Ok(gravest)
}

/// The object of one file; the stories are those of the answered ones, in order.
fn json_line<'a>(
    options: &Options,
    file: &File,
    read: &Result<Given, Unfit>,
    outcome: Option<&Outcome>,
    stories: &mut impl Iterator<Item = &'a Story>,
) -> String {
    let (file, command) = (file.shown(), options::name(options.command));
    match (read, outcome) {
        (Err(Unfit::Mistakes(mistakes)), _) => objects::bad_text(&file, command, mistakes),
        (Err(Unfit::Unread(trouble)), _) => objects::unread(&file, command, &trouble.to_string()),
        (_, Some(Outcome::Refused(refused))) => objects::refused(&file, command, refused),
        (_, Some(outcome)) => {
            let status = status(outcome);
            stories
                .next()
                .map_or(String::new(), |story| objects::told(story, command, status))
        }
        (_, None) => String::new(),
    }
}

/// What the programs print themselves.
pub fn raw(
    programs: &Programs,
    options: &Options,
    read: &[Result<Given, Unfit>],
) -> Result<u8, Trouble> {
    let mut gravest = 0;
    for (file, one) in options.files.iter().zip(read) {
        if read.len() > 1 {
            output::print(format!("== {}\n", file.shown()).as_bytes())?;
        }
        let status = match one {
            Ok(given) => raw_one(programs, options, given)?,
            Err(unfit) => {
                say_unfit(file, unfit);
                NO_ANSWER
            }
        };
        gravest = graver(gravest, status);
    }
    Ok(gravest)
}

fn raw_one(programs: &Programs, options: &Options, given: &Given) -> Result<u8, Trouble> {
    let search = options.search();
    let (program, input) = match (options.command, search, options.budget) {
        (Command::Judge, ..) => ("judge", given.bytes.clone()),
        (_, Search::Walk { .. }, None) => ("question", given.bytes.clone()),
        // the program `question` has one budget; `batch` takes any, and answers with the number and the lent buffer
        _ => (
            frames::program(search),
            frames::question(&given.bytes, search),
        ),
    };
    let mut status = NO_ANSWER;
    let mut is_first = true;
    programs.lines(
        program,
        input,
        &[format!("asking {}", given.file)],
        &mut |line| {
            if program == frames::LEND {
                // a line that cannot be told cannot be passed on as an answer either
                frames::asked(line, search)?;
            }
            if is_first {
                status = raw_status(line);
                is_first = false;
            }
            output::print(format!("{line}\n").as_bytes())
        },
    )?;
    match is_first {
        true => Err(Trouble::ProgramEnded(
            program.to_string(),
            "it printed nothing".to_string(),
        )),
        false => Ok(status),
    }
}

/// Text to records, or either to text: all the files or none.
pub fn turn(
    programs: &Programs,
    options: &Options,
    read: &[Result<Given, Unfit>],
) -> Result<u8, Trouble> {
    let outcomes = all_answers(programs, None, read)?;
    let mut out = Vec::new();
    let mut status = 0;
    for ((file, one), outcome) in options.files.iter().zip(read).zip(&outcomes) {
        match (one, outcome) {
            (Ok(given), Some(Outcome::Answer(..))) => {
                out.extend(turned(options.command, given, read.len() > 1));
                continue;
            }
            (Ok(given), _) => say_refused(given, outcome.as_ref()),
            (Err(unfit), _) => say_unfit(file, unfit),
        }
        status = NO_ANSWER;
    }
    if status == 0 {
        output::print(&out)?;
    }
    Ok(status)
}

/// The case as text, with its file's name where there are several; or its records.
fn turned(command: Command, given: &Given, is_one_of_several: bool) -> Vec<u8> {
    match command {
        Command::Text if is_one_of_several => {
            format!("# {}\n{}", given.file, layout::text(&given.case())).into_bytes()
        }
        Command::Text => layout::text(&given.case()).into_bytes(),
        _ => given.bytes.clone(),
    }
}
