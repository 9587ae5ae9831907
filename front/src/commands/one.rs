//! One case: its answer told in full, or its run drawn.

use super::answers::{all_answers, say_refused, say_unfit, search_of, story};
use super::options::Options;
use super::statuses::{status, NO_ANSWER};
use crate::desk::{programs::Programs, Given, Outcome, Unfit};
use crate::draw;
use crate::files;
use crate::messages::Trouble;
use crate::output;
use crate::page;
use crate::story::{Answer, Story};
use crate::tell::{report, run};

pub fn tell(
    programs: &Programs,
    options: &Options,
    read: &Result<Given, Unfit>,
) -> Result<u8, Trouble> {
    let search = search_of(options);
    let found = all_answers(programs, search, std::slice::from_ref(read))?;
    match (read, &found[0]) {
        (Ok(given), Some(outcome)) => {
            let words = match outcome {
                Outcome::Answer(answer, run) => {
                    report::words(&story(programs, given, (*answer, run.clone()), search)?)
                }
                Outcome::Refused(refused) => report::refused(&given.file, refused),
            };
            output::print(words.as_bytes())?;
            Ok(status(outcome))
        }
        (Err(unfit), _) => {
            say_unfit(&options.files[0], unfit);
            Ok(NO_ANSWER)
        }
        // a stream that ended early was told as trouble already
        (Ok(_), None) => Ok(NO_ANSWER),
    }
}

/// The run in the file, else the run that answers its question.
pub fn draw(
    programs: &Programs,
    options: &Options,
    read: &Result<Given, Unfit>,
) -> Result<u8, Trouble> {
    let given = match read {
        Ok(given) => given,
        Err(unfit) => {
            say_unfit(&options.files[0], unfit);
            return Ok(NO_ANSWER);
        }
    };
    let search = (!given.has_run()).then_some(options.search());
    let found = all_answers(programs, search, std::slice::from_ref(read))?;
    match &found[0] {
        Some(Outcome::Answer(
            answer @ (Answer::Unreachable { .. } | Answer::Undecided { .. }),
            _,
        )) => {
            let (file, word) = (&given.file, answer.word());
            output::say(&format!("{file}: {word}, so there is no run to draw\n"));
            Ok(NO_ANSWER)
        }
        Some(Outcome::Answer(answer, run)) => {
            let story = story(programs, given, (*answer, run.clone()), search)?;
            write_drawing(options, &story)
        }
        refused => {
            say_refused(given, refused.as_ref());
            Ok(NO_ANSWER)
        }
    }
}

fn write_drawing(options: &Options, story: &Story) -> Result<u8, Trouble> {
    let drawing = match options.html {
        true => page::html(story, &run::sentences(story)),
        false => draw::svg(story),
    };
    match &options.out {
        None => output::print(drawing.as_bytes())?,
        Some(file) => {
            output::save(file, drawing.as_bytes())?;
            // not an answer, so not for standard output
            let (case, file) = (&story.file, files::shown(file));
            output::say(&format!("{case}: the run is drawn to {file}\n"));
        }
    }
    Ok(0)
}
