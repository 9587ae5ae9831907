//! The command line, what each command does with the files that it names, and the exit statuses.

mod answers;
mod forms;
mod one;
mod options;
mod several;
mod statuses;

use crate::desk::{programs::Programs, Given, Unfit};
use crate::messages::Trouble;
use crate::output;
use options::{Command, Form, Options};
use std::ffi::OsString;

/// Does what the words of a command line say, and says what stopped it; the exit status.
pub fn run(words: &[OsString]) -> u8 {
    match options::options(words).and_then(|options| obey(&options)) {
        Ok(status) => status,
        Err(trouble) => {
            output::say(&format!("garluveni: {trouble}\n"));
            statuses::NO_ANSWER
        }
    }
}

fn obey(options: &Options) -> Result<u8, Trouble> {
    if options.command == Command::Help {
        output::print(include_str!("help.txt").as_bytes())?;
        return Ok(0);
    }
    let programs = Programs::new()?;
    let read: Vec<Result<Given, Unfit>> =
        options.files.iter().map(|file| Given::read(file)).collect();
    match (options.command, options.form) {
        (Command::Draw, _) => one::draw(&programs, options, &read[0]),
        (Command::Text, _) | (_, Form::Bytes) => forms::turn(&programs, options, &read),
        (_, Form::Raw) => forms::raw(&programs, options, &read),
        (_, Form::Json) => forms::json(&programs, options, &read),
        _ if read.len() > 1 => several::tell(&programs, options, &read),
        _ => one::tell(&programs, options, &read[0]),
    }
}
