//! The independent second judge: cases, the machine and the question in plain Rust, answers by frames.
//!
//! `judge` uses nothing of `streams`. Among the streams, which all use what stands beside them in
//! `streams`: `cases` uses no other, `machine` uses `cases`, `question` uses `machine` and `cases`,
//! `remember` uses `question` and `machine`, `whole` uses `machine`, and `text` uses `question`, `machine`
//! and `cases`.

mod judge;
mod streams;

#[cfg(test)]
mod tests;

use std::io::{self, BufReader, BufWriter, StdinLock, StdoutLock, Write};
use std::path::Path;
use std::process::ExitCode;
use streams::cases::{self, counts::FrameCounts, frame::Frame};
use streams::machine::{self, counts::TrialCounts, frame::Trial};
use streams::parts::Take;
use streams::question::{self, counts::QueryCounts, frame::Query};
use streams::remember::{self, counts::LoanCounts, frame::Loan};
use streams::tally::Counts;
use streams::text::{counts::TextCounts, files};
use streams::whole::{self, counts::WholeCounts};

const USAGE: &str = "usage: second answer | second generate SEED COUNT | second counts, \
                     or machine-, question-, remember- or whole- in front of the mode, \
                     or second question-runs, \
                     or second machine-judged, \
                     or second text-generate SEED COUNT FOLDER | second text-counts FOLDER | \
                     second text-mistakes SEED COUNT FOLDER | \
                     second text-frames FOLDER BUDGET | second text-judge-frames FOLDER";

type Stream = BufReader<StdinLock<'static>>;
type Out = BufWriter<StdoutLock<'static>>;

fn main() -> ExitCode {
    let words: Vec<String> = std::env::args().skip(1).collect();
    let words: Vec<&str> = words.iter().map(String::as_str).collect();
    match of_streams(&words) {
        Ok(()) => ExitCode::SUCCESS,
        Err(error) => {
            eprintln!("second: {error}");
            ExitCode::FAILURE
        }
    }
}

/// The modes that read or write a stream of frames; the others have a folder.
fn of_streams(words: &[&str]) -> io::Result<()> {
    match words[..] {
        ["answer"] => answer_all(Frame::read_from, |frame| {
            cases::answer::answer(frame).line()
        }),
        ["counts"] => count(Frame::read_from, FrameCounts::new()),
        ["generate", seed, count] => {
            generate(cases::generate::frames, Frame::write_to, seed, count)
        }
        ["machine-answer"] | ["whole-answer"] => {
            answer_all(Trial::read_from, |one| machine::answer::answer(one).line())
        }
        ["machine-judged"] => answer_all(Trial::read_from, machine::answer::judged_line),
        ["machine-counts"] => count(Trial::read_from, TrialCounts::new()),
        ["machine-generate", seed, count] => {
            generate(machine::generate::frames, Trial::write_to, seed, count)
        }
        ["whole-counts"] => count(Trial::read_from, WholeCounts::new()),
        ["whole-generate", seed, count] => {
            let write = |program: &Vec<Trial>, out: &mut Out| {
                program.iter().try_for_each(|one| one.write_to(out))
            };
            generate(whole::generate::programs, write, seed, count)
        }
        _ => of_questions(words),
    }
}

/// Those of the question, whichever walk it is asked of.
fn of_questions(words: &[&str]) -> io::Result<()> {
    match words[..] {
        ["question-answer"] => {
            answer_all(Query::read_from, |one| question::answer::answer(one).line())
        }
        ["question-runs"] => answer_all(Query::read_from, question::answer::runs_line),
        ["question-counts"] => count(Query::read_from, QueryCounts::new()),
        ["question-generate", seed, count] => {
            let write = |case: &Vec<Query>, out: &mut Out| {
                case.iter().try_for_each(|query| query.write_to(out))
            };
            generate(question::generate::cases, write, seed, count)
        }
        ["remember-answer"] => answer_all(Loan::read_from, |one| {
            remember::answer::line(one, &remember::answer::answer(one))
        }),
        ["remember-counts"] => count(Loan::read_from, LoanCounts::new()),
        ["remember-generate", seed, count] => {
            let write = |case: &Vec<Loan>, out: &mut Out| {
                case.iter().try_for_each(|loan| loan.write_to(out))
            };
            generate(remember::generate::cases, write, seed, count)
        }
        _ => of_folders(words),
    }
}

/// The modes that have a folder of written cases.
fn of_folders(words: &[&str]) -> io::Result<()> {
    match words[..] {
        ["text-generate", seed, count, folder] => {
            files::generate(number(seed)?, number(count)?, Path::new(folder))
        }
        ["text-mistakes", seed, count, folder] => {
            let places = files::mistaken(number(seed)?, number(count)?, Path::new(folder))?;
            print!("{places}");
            Ok(())
        }
        ["text-counts", folder] => {
            let mut counts = TextCounts::new();
            files::each(Path::new(folder), |written| counts.take(&written))?;
            tell(&counts)
        }
        ["text-frames", folder, budget] => {
            let budget = u32::try_from(number(budget)?).map_err(|_| usage())?;
            frames(folder, |bytes, out| {
                files::question(bytes, budget).write_to(out)
            })
        }
        ["text-judge-frames", folder] => {
            frames(folder, |bytes, out| files::judge(bytes).write_to(out))
        }
        _ => Err(usage()),
    }
}

/// A frame of the records of each case in the folder.
fn frames(folder: &str, write: impl Fn(Vec<u8>, &mut Out) -> io::Result<()>) -> io::Result<()> {
    let mut out = BufWriter::new(io::stdout().lock());
    files::each_bytes(Path::new(folder), |bytes| write(bytes, &mut out))?;
    out.flush()
}

fn usage() -> io::Error {
    io::Error::new(io::ErrorKind::InvalidInput, USAGE)
}

fn number(word: &str) -> io::Result<u64> {
    word.parse().map_err(|_| usage())
}

/// Every frame of standard input, with the stream's own reader.
fn each<F>(
    read: fn(&mut Stream) -> io::Result<Option<F>>,
    mut take: impl FnMut(F) -> io::Result<()>,
) -> io::Result<()> {
    let mut stream = BufReader::new(io::stdin().lock());
    while let Some(frame) = read(&mut stream)? {
        take(frame)?;
    }
    Ok(())
}

fn answer_all<F>(
    read: fn(&mut Stream) -> io::Result<Option<F>>,
    line: fn(&F) -> String,
) -> io::Result<()> {
    let mut out = BufWriter::new(io::stdout().lock());
    each(read, |frame| out.write_all(line(&frame).as_bytes()))?;
    out.flush()
}

fn generate<F>(
    frames: fn(u64, u64, Take<F>) -> io::Result<()>,
    write: fn(&F, &mut Out) -> io::Result<()>,
    seed: &str,
    count: &str,
) -> io::Result<()> {
    let mut out = BufWriter::new(io::stdout().lock());
    frames(number(seed)?, number(count)?, &mut |part| {
        part.iter().try_for_each(|one| write(one, &mut out))
    })?;
    out.flush()
}

fn count<F>(
    read: fn(&mut Stream) -> io::Result<Option<F>>,
    mut counts: impl Counts<F>,
) -> io::Result<()> {
    each(read, |frame| {
        counts.take(&frame);
        Ok(())
    })?;
    tell(&counts)
}

/// The table, and an error where something is wrong or missing.
fn tell<F>(counts: &impl Counts<F>) -> io::Result<()> {
    print!("{}", counts.table());
    let faults = counts.faults();
    if faults.is_empty() {
        return Ok(());
    }
    Err(io::Error::new(io::ErrorKind::Other, faults.join("\n")))
}
