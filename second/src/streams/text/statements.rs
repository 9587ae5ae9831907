//! What a text says: the statements of a case as lines of words, before it is said how a word is
//! written and in which order the lines stand.

use crate::judge::case::{Case, Instruction, Step, TOLD_LINES};
use crate::judge::machine::rules::{ISSUE, MOVE};
use crate::streams::layouts::on_line;

#[derive(Clone, Debug)]
pub enum Word {
    /// A word of the grammar.
    Key(&'static str),
    /// Two words of the grammar that say the same; the one text has the first.
    Either([&'static str; 2]),
    Location(u8),
    Register(u8),
    /// Decimal or hexadecimal.
    Number(u32),
    /// A thread, position, count or line number.
    Digits(u8),
    /// One word of several parts.
    Joined(Vec<Word>),
}

use Word::*;

pub type Line = Vec<Word>;

pub fn locations(case: &Case) -> Line {
    let names = (0..case.locations).map(Location);
    [Key("locations")].into_iter().chain(names).collect()
}

/// Every line with its locations; none in version 1.
pub fn lines(case: &Case) -> Vec<Line> {
    let told = if case.version == TOLD_LINES {
        case.lines
    } else {
        0
    };
    let line = |line: u8| {
        let names = on_line(case, line.into()).into_iter().map(Location);
        [Key("line")].into_iter().chain(names).collect()
    };
    (0..told).map(line).collect()
}

pub fn firsts(case: &Case) -> Vec<Line> {
    let held = (0u8..).zip(case.first).filter(|&(_, word)| word != 0);
    held.map(|(at, word)| vec![Key("first"), Location(at), Number(word)])
        .collect()
}

/// Of each thread the line that names it, and its instructions behind.
pub fn threads(case: &Case) -> Vec<Vec<Line>> {
    let list = |thread: u8| {
        let all = &case.code[Case::places(thread.into())];
        let used = &all[..usize::from(case.counts[usize::from(thread)])];
        let head = vec![Key("thread"), Digits(thread)];
        [head].into_iter().chain(used.iter().map(line)).collect()
    };
    (0..case.threads).map(list).collect()
}

fn line(one: &Instruction) -> Line {
    let (at, register, word) = (
        Location(one.location),
        Register(one.register),
        Number(one.word),
    );
    match one.operation {
        1 => vec![Key("store"), at, word],
        2 => vec![Key("store"), at, register],
        3 => vec![Key("load"), at, register],
        4 => vec![Key("xchg"), at, register, word],
        5 => vec![Key("clflush"), at],
        6 => vec![Key("clflushopt"), at],
        7 => vec![Key("sfence")],
        9 => vec![Either(["cmpxchg", "cas"]), at, register, word],
        _ => vec![Key("mfence")],
    }
}

pub fn wants(case: &Case) -> Vec<Line> {
    let all = (0u8..).zip(case.want).zip(case.wanted);
    all.filter(|&(_, wanted)| wanted)
        .map(|((at, word), _)| vec![Key("want"), Location(at), Number(word)])
        .collect()
}

pub fn passed(case: &Case) -> Vec<Line> {
    let all = (0u8..).zip(case.passed).filter(|&(_, least)| least != 0);
    all.map(|(thread, least)| vec![Key("passed"), Digits(thread), Digits(least)])
        .collect()
}

/// The line `run` alone; steps belong behind it.
pub fn run() -> Line {
    vec![Key("run")]
}

pub fn steps(case: &Case) -> &[Step] {
    &case.steps[..usize::from(case.count)]
}

/// A persist names its line by the given one of the line's locations, counted from 0.
pub fn in_words(case: &Case, step: &Step, by: usize) -> Line {
    match step.code {
        ISSUE => vec![Key("issue"), Digits(step.thread)],
        MOVE => vec![Key("move"), Digits(step.thread), Digits(step.position)],
        _ => {
            let names = on_line(case, step.line.into());
            vec![Key("persist"), Location(names[by % names.len()])]
        }
    }
}

pub fn in_letters(step: &Step) -> Line {
    let (thread, position) = (Digits(step.thread), Digits(step.position));
    let parts = match step.code {
        ISSUE => vec![Key("I"), thread],
        MOVE => vec![Key("M"), thread, Key("."), position],
        _ => vec![Key("P"), Digits(step.line)],
    };
    vec![Joined(parts)]
}
