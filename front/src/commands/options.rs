//! The command line.

use crate::files::{shown, File};
use crate::messages::Trouble;
use crate::sizes;
use crate::story::search::Search;
use std::ffi::OsString;

#[derive(Clone, Copy, Debug, PartialEq, Eq)]
pub enum Command {
    Ask,
    Judge,
    Draw,
    Text,
    Help,
}

#[derive(Clone, Copy, Debug, PartialEq, Eq)]
pub enum Form {
    Words,
    Raw,
    Json,
    Bytes,
}

pub struct Options {
    pub command: Command,
    pub form: Form,
    /// The plain walk is to be asked; so it is where it has a budget.
    pub walk: bool,
    /// None: the budget of the program `question`.
    pub budget: Option<u32>,
    /// None: any number.
    pub states: Option<u32>,
    /// In bytes.
    pub memory: Option<u64>,
    pub html: bool,
    /// None: standard output.
    pub out: Option<OsString>,
    pub files: Vec<File>,
}

pub fn name(command: Command) -> &'static str {
    match command {
        Command::Ask => "ask",
        Command::Judge => "judge",
        Command::Draw => "draw",
        Command::Text => "text",
        Command::Help => "help",
    }
}

fn usage<T>(what: String) -> Result<T, Trouble> {
    Err(Trouble::Usage(what))
}

pub fn options(words: &[OsString]) -> Result<Options, Trouble> {
    let Some(first) = words.first() else {
        return usage("a command is missing: ask, judge, draw, text or help".to_string());
    };
    let command = match first.to_str() {
        Some("ask") => Command::Ask,
        Some("judge") => Command::Judge,
        Some("draw") => Command::Draw,
        Some("text") => Command::Text,
        Some("help" | "--help" | "-h") => Command::Help,
        _ => {
            let other = shown(first);
            return usage(format!(
                "'{other}' is no command: ask, judge, draw, text or help"
            ));
        }
    };
    let mut found = Options {
        command,
        form: Form::Words,
        walk: false,
        budget: None,
        states: None,
        memory: None,
        html: false,
        out: None,
        files: Vec::new(),
    };
    take_words(&mut found, &words[1..])?;
    if found.command != Command::Help {
        fits(&found)?;
    }
    Ok(found)
}

fn take_words(found: &mut Options, words: &[OsString]) -> Result<(), Trouble> {
    let mut rest = words.iter();
    let mut is_plain = false;
    while let Some(word) = rest.next() {
        match word.to_str() {
            _ if is_plain => found.files.push(File::Named(word.clone())),
            Some("--") => is_plain = true,
            Some("--help" | "-h") => found.command = Command::Help,
            Some("--raw") => take_form(found, Form::Raw)?,
            Some("--json") => take_form(found, Form::Json)?,
            Some("--bytes") => take_form(found, Form::Bytes)?,
            Some("--html") => found.html = true,
            Some("--walk") => found.walk = true,
            Some("--budget") => found.budget = Some(count(rest.next(), "--budget", "runs")?),
            Some("--states") => {
                found.states = Some(count(rest.next(), "--states", "distinct states")?);
            }
            Some("--memory") => found.memory = Some(size(rest.next())?),
            Some("-o") => found.out = file_after(rest.next())?,
            Some("-") => take_input(found)?,
            Some(option) if option.starts_with('-') => {
                return usage(format!("'{}' is no option", shown(word)));
            }
            _ => found.files.push(File::Named(word.clone())),
        }
    }
    Ok(())
}

fn take_input(found: &mut Options) -> Result<(), Trouble> {
    if found.files.contains(&File::Input) {
        return usage("standard input can be read only once".to_string());
    }
    found.files.push(File::Input);
    Ok(())
}

fn take_form(found: &mut Options, form: Form) -> Result<(), Trouble> {
    if found.form != Form::Words && found.form != form {
        return usage("only one of --raw, --json and --bytes can be had at once".to_string());
    }
    found.form = form;
    Ok(())
}

fn count(word: Option<&OsString>, option: &str, what: &str) -> Result<u32, Trouble> {
    let text = word.and_then(|word| word.to_str()).unwrap_or("");
    match number(text).and_then(|number| u32::try_from(number).ok()) {
        Some(number) => Ok(number),
        None => usage(format!(
            "{option} wants a number of {what}, 0 to 4294967295"
        )),
    }
}

/// A number of bytes, or of KiB, MiB or GiB; at least one state finds room there.
fn size(word: Option<&OsString>) -> Result<u64, Trouble> {
    let text = word.and_then(|word| word.to_str()).unwrap_or("");
    let digits = text.trim_end_matches(['K', 'M', 'G']);
    let unit = match &text[digits.len()..] {
        "" => Some(1),
        "K" => Some(1 << 10),
        "M" => Some(1 << 20),
        "G" => Some(1 << 30),
        _ => None,
    };
    let bytes = unit.and_then(|unit: u64| number(digits)?.checked_mul(unit));
    match bytes {
        Some(bytes) if (sizes::STATE..=sizes::MOST_MEMORY).contains(&bytes) => Ok(bytes),
        _ => usage(
            "--memory wants a size: 768 bytes, which is one state, to 16G; K, M or G behind a number is KiB, MiB or GiB"
                .to_string(),
        ),
    }
}

/// Digits, with commas before each three or none.
fn number(text: &str) -> Option<u64> {
    let groups: Vec<&str> = text.split(',').collect();
    let is_grouped = groups[0].len() <= 3 && groups[1..].iter().all(|group| group.len() == 3);
    let digits = groups.concat();
    let is_number = digits.bytes().all(|byte| byte.is_ascii_digit());
    let number = digits.parse().ok()?;
    (is_number && (is_grouped || groups.len() == 1)).then_some(number)
}

/// A file's name; - is standard output.
fn file_after(word: Option<&OsString>) -> Result<Option<OsString>, Trouble> {
    match word {
        Some(word) if word == "-" => Ok(None),
        Some(word) => Ok(Some(word.clone())),
        None => usage("-o wants the name of a file".to_string()),
    }
}

/// Whether the options are some that the command has.
fn fits(found: &Options) -> Result<(), Trouble> {
    let is = |command| found.command == command;
    if found.files.is_empty() {
        return usage("no file is given; - is standard input".to_string());
    }
    if is(Command::Draw) && found.files.len() > 1 {
        return usage("draw takes one file".to_string());
    }
    if !is(Command::Ask) && !is(Command::Judge) && found.form != Form::Words {
        return usage("--raw, --json and --bytes go with ask and judge".to_string());
    }
    let walks = found.walk || found.budget.is_some();
    let remembers = found.states.is_some() || found.memory.is_some();
    if !is(Command::Ask) && !is(Command::Draw) && (walks || remembers) {
        return usage("--states, --memory, --walk and --budget go with ask and draw".to_string());
    }
    if walks && remembers {
        return usage(
            "--states and --memory do not go with --walk or --budget: the plain walk keeps no states"
                .to_string(),
        );
    }
    if !is(Command::Draw) && (found.html || found.out.is_some()) {
        return usage("--html and -o go with draw".to_string());
    }
    if is(Command::Draw) && is_same(&found.files[0], found.out.as_ref()) {
        return usage("-o names the file that is to be drawn".to_string());
    }
    Ok(())
}

fn is_same(file: &File, out: Option<&OsString>) -> bool {
    match (file, out) {
        (File::Named(name), Some(out)) => {
            let place = |name| std::fs::canonicalize(name).ok();
            place(name).is_some() && place(name) == place(out)
        }
        _ => false,
    }
}

impl Options {
    /// What a question is put to.
    pub fn search(&self) -> Search {
        match self.walk || self.budget.is_some() {
            true => Search::Walk {
                runs: self.budget.unwrap_or(sizes::BUDGET),
            },
            false => Search::Remember {
                states: self.states.unwrap_or(u32::MAX),
                bytes: self.memory.unwrap_or(sizes::MEMORY),
            },
        }
    }
}
