//! Every message that says what went wrong: mistakes of a text, and trouble around it. The tests want each line of words here seen once.

use crate::sizes;
use std::fmt;

/// What stands where something else was expected.
#[derive(Clone, Debug, PartialEq, Eq)]
pub enum What {
    Expected(Expected, String),
    Missing(Expected),
    Unknown(String, String),
    Misnamed(String, String),
    Extra(String),
    NotText(u8),
    TooLong(String),
    RegisterName(String),
    NamedTwice(String),
    OnLineAlready(String, usize),
    Again(&'static str, usize),
    AgainOf(&'static str, String, usize),
    NoLocations,
    NoThread,
    NextThread(usize),
    NoSuchThread(String, usize),
    NoSuchNumber(String, usize),
    NoSuchLine(String, usize),
    Outside(&'static str),
    MostLocations,
    MostThreads,
    MostInstructions(usize),
    MostSteps,
    MostPosition,
    MostWord,
    FirstZero,
    PassedZero,
    PassedMore(usize, usize),
    /// What is done to the register, its number, the thread.
    Unset(&'static str, u8, usize),
}

#[derive(Clone, Copy, Debug, PartialEq, Eq)]
pub enum Expected {
    Name,
    Location,
    Register,
    Number,
    NumberOrRegister,
    Thread,
    Count,
    Position,
}

impl fmt::Display for Expected {
    fn fmt(&self, out: &mut fmt::Formatter) -> fmt::Result {
        out.write_str(match self {
            Expected::Name => "a name (a letter or _, then letters, digits, _, - or .)",
            Expected::Location => "a location's name",
            Expected::Register => "a register (r0 to r3)",
            Expected::Number => "a number",
            Expected::NumberOrRegister => "a number or a register (r0 to r3)",
            Expected::Thread => "a thread's number",
            Expected::Count => "a number of instructions",
            Expected::Position => "a position in the buffer",
        })
    }
}

impl fmt::Display for What {
    fn fmt(&self, out: &mut fmt::Formatter) -> fmt::Result {
        match self {
            What::Expected(wanted, found) => write!(out, "expected {wanted}, found '{found}'"),
            What::Missing(wanted) => write!(out, "expected {wanted}, found the end of the line"),
            What::Unknown(found, hint) => {
                write!(out, "expected a statement, found '{found}'{hint}")
            }
            What::Misnamed(found, hint) => write!(out, "no location is named '{found}'{hint}"),
            What::Extra(found) => write!(out, "expected the end of the line, found '{found}'"),
            What::NotText(byte) => write!(out, "byte 0x{byte:02x} is not text"),
            What::TooLong(name) => write!(out, "the name '{name}' is longer than 24 characters"),
            What::RegisterName(name) => write!(out, "'{name}' is a register and names no location"),
            What::NamedTwice(name) => write!(out, "'{name}' is named twice"),
            What::OnLineAlready(name, line) => write!(
                out,
                "'{name}' is named already by 'line' on line {line}: name all that share its cache line there"
            ),
            What::Again(word, line) => write!(out, "'{word}' is there already, on line {line}"),
            What::AgainOf(word, of, line) => {
                write!(out, "'{word} {of}' is there already, on line {line}")
            }
            _ => self.order(out),
        }
    }
}

impl What {
    /// The messages about what is missing or out of place.
    fn order(&self, out: &mut fmt::Formatter) -> fmt::Result {
        match self {
            What::NoLocations => write!(out, "expected 'locations' and their names first"),
            What::NoThread => write!(
                out,
                "expected 'thread 0': a program has one thread at least"
            ),
            What::NextThread(next) => {
                write!(out, "expected 'thread {next}': threads come in order")
            }
            What::NoSuchThread(name, last) => {
                write!(out, "there is no thread {name}: the last is thread {last}")
            }
            What::NoSuchNumber(name, last) => write!(
                out,
                "there is no location {name}: the last is number {last}"
            ),
            What::NoSuchLine(name, last) => write!(
                out,
                "there is no cache line {name}: the last is number {last}"
            ),
            What::Unset(done, register, thread) => write!(
                out,
                "register r{register} is {done} here, and no instruction of thread {thread} before it sets it"
            ),
            What::Outside("run") => write!(out, "expected 'run' before a step"),
            What::Outside(_) => write!(out, "expected 'thread' before an instruction"),
            _ => self.limit(out),
        }
    }

    /// The messages about size.
    fn limit(&self, out: &mut fmt::Formatter) -> fmt::Result {
        match self {
            What::MostLocations => {
                write!(out, "one location too many: {} at most", sizes::LOCATIONS)
            }
            What::MostThreads => write!(out, "one thread too many: {} at most", sizes::THREADS),
            What::MostInstructions(thread) => {
                let most = sizes::INSTRUCTIONS;
                write!(
                    out,
                    "one instruction too many of thread {thread}: {most} at most"
                )
            }
            What::MostSteps => write!(out, "one step too many: {} at most", sizes::STEPS),
            What::MostPosition => write!(out, "a position is 0 to {}", sizes::POSITIONS - 1),
            What::MostWord => write!(out, "a word is at most 4294967295"),
            What::FirstZero => write!(out, "a location without this line holds 0: leave it out"),
            What::PassedZero => write!(
                out,
                "a thread without this line may have passed 0: leave it out"
            ),
            What::PassedMore(thread, count) => {
                write!(out, "thread {thread} has only {count} instructions")
            }
            _ => Ok(()),
        }
    }
}

/// A mistake of a text and its place; line and column from 1.
#[derive(Clone, Debug, PartialEq, Eq)]
pub struct Mistake {
    pub line: usize,
    pub column: usize,
    pub what: What,
}

/// What stopped the front door, outside any text.
#[derive(Debug)]
pub enum Trouble {
    Usage(String),
    CannotRead(String, String),
    TextTooLong(String),
    CannotWrite(String, String),
    Closed,
    NoRoot,
    CannotRun(String, String),
    ProgramEnded(String, String),
    OddLine(String, String),
    Spoilt(String),
    Astray(String),
}

impl fmt::Display for Trouble {
    fn fmt(&self, out: &mut fmt::Formatter) -> fmt::Result {
        match self {
            Trouble::Usage(what) => write!(out, "{what}; './garluveni help' says more"),
            Trouble::CannotRead(file, why) => write!(out, "cannot read {file}: {why}"),
            Trouble::TextTooLong(file) => write!(
                out,
                "{file}: longer than 1048576 bytes, so no text of a case"
            ),
            Trouble::CannotWrite(file, why) => write!(out, "cannot write {file}: {why}"),
            Trouble::Closed => write!(out, "standard output was closed before all was written"),
            Trouble::NoRoot => write!(
                out,
                "start it as ./garluveni: that builds the programs and says where they are"
            ),
            Trouble::CannotRun(program, why) => {
                write!(out, "cannot run the program {program}: {why}")
            }
            Trouble::ProgramEnded(program, how) => {
                write!(out, "the program {program} gave no answer: {how}")
            }
            Trouble::Spoilt(program) => write!(
                out,
                "the program {program} says that the lent memory was not left as promised: its answer is not told"
            ),
            Trouble::Astray(file) => {
                write!(
                    out,
                    "{file}: the run cannot be told as the judge's states have it"
                )
            }
            Trouble::OddLine(program, line) => write!(
                out,
                "the program {program} answered '{line}', which is not understood"
            ),
        }
    }
}
