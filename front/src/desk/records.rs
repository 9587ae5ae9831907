//! A case as records, and records that the proved reader has taken as a case. docs/FORMAT.md has the records.

use crate::case::{Case, Instruction, Step};
use crate::sizes;
use crate::text::layout::NAMES;

/// Whether a file is records: its first record's kind is that of a program. No text has a zero byte.
pub fn is_records(bytes: &[u8]) -> bool {
    bytes.len() >= 4 && bytes[2] == 1 && bytes[3] == 0
}

/// Whether the record at that offset is a program record that is not of version 1, as far as it is there.
pub fn is_lined(bytes: &[u8], offset: usize) -> bool {
    offset == 0 && bytes.get(4..6).is_some_and(|version| version != [1, 0])
}

pub fn bytes_of(case: &Case) -> Vec<u8> {
    let mut out = Vec::new();
    put(&mut out, 1, &program_bytes(case));
    for (at, word) in case
        .first
        .iter()
        .enumerate()
        .filter(|(_, word)| **word != 0)
    {
        put(&mut out, 2, &with_word(&[at as u8], *word));
    }
    for (thread, code) in case.threads.iter().enumerate() {
        code.iter()
            .for_each(|one| put(&mut out, 3, &instruction_bytes(thread as u8, one)));
    }
    put_asked(&mut out, case);
    put_steps(&mut out, &case.run);
    out
}

/// The same records with another run.
pub fn with_run(case: &Case, run: &[Step]) -> Vec<u8> {
    let mut out = bytes_of(&Case {
        run: Vec::new(),
        ..case.clone()
    });
    put_steps(&mut out, run);
    out
}

fn put(out: &mut Vec<u8>, kind: u8, payload: &[u8]) {
    out.extend([payload.len() as u8, 0, kind, 0]);
    out.extend(payload);
}

fn with_word(front: &[u8], word: u32) -> Vec<u8> {
    [front, &word.to_le_bytes()].concat()
}

/// In version 2 a line byte for each location stands behind the counts.
fn program_bytes(case: &Case) -> Vec<u8> {
    let (threads, locations) = (case.threads.len() as u8, case.names.len() as u8);
    let lines = if case.version == 1 {
        &[]
    } else {
        &case.lines[..]
    };
    [&[case.version, 0, threads, locations], lines].concat()
}

fn instruction_bytes(thread: u8, one: &Instruction) -> Vec<u8> {
    let (operation, at, register, word) = match *one {
        Instruction::Store { at, word } => (1, at, 0, word),
        Instruction::StoreRegister { at, register } => (2, at, register, 0),
        Instruction::Load { at, register } => (3, at, register, 0),
        Instruction::Exchange { at, register, word } => (4, at, register, word),
        Instruction::Flush { at } => (5, at, 0, 0),
        Instruction::FlushOpt { at } => (6, at, 0, 0),
        Instruction::Sfence => (7, 0, 0, 0),
        Instruction::Mfence => (8, 0, 0, 0),
        Instruction::Compare { at, register, word } => (9, at, register, word),
    };
    with_word(&[thread, operation, at, register], word)
}

fn put_asked(out: &mut Vec<u8>, case: &Case) {
    for (at, word) in case.wants.iter().enumerate() {
        if let Some(word) = word {
            put(out, 4, &with_word(&[at as u8], *word));
        }
    }
    for (thread, count) in case
        .passed
        .iter()
        .enumerate()
        .filter(|(_, count)| **count != 0)
    {
        put(out, 5, &[thread as u8, *count]);
    }
}

fn put_steps(out: &mut Vec<u8>, run: &[Step]) {
    for step in run {
        let payload = match *step {
            Step::Issue { thread } => [thread, 0, 0, 0],
            Step::Move { thread, position } => [thread, 1, position, 0],
            Step::Persist { line } => [0, 2, 0, line],
        };
        put(out, 6, &payload);
    }
}

/// A case of records that the proved reader has taken. It tests nothing, and is asked of no other bytes.
pub fn case_of(bytes: &[u8]) -> Case {
    let byte = |at: usize| bytes.get(at).copied().unwrap_or(0);
    let count = |at: usize, most: usize| (byte(at) as usize).min(most);
    let (threads, locations) = (count(6, sizes::THREADS), count(7, sizes::LOCATIONS));
    let version = byte(4);
    let line = |at: usize| if version == 1 { at as u8 } else { byte(8 + at) };
    let mut case = Case {
        version,
        lines: (0..locations).map(line).collect(),
        names: NAMES[..locations]
            .iter()
            .map(|name| name.to_string())
            .collect(),
        first: vec![0; locations],
        threads: vec![Vec::new(); threads],
        wants: vec![None; locations],
        passed: vec![0; threads],
        run: Vec::new(),
    };
    for (kind, payload) in each(bytes) {
        take(&mut case, kind, payload);
    }
    case
}

/// Whether a step is among the records, of bytes that the proved reader may refuse.
pub fn has_run(bytes: &[u8]) -> bool {
    each(bytes).any(|(kind, _)| kind == 6)
}

/// The kind and the payload of each record that is there whole.
fn each(bytes: &[u8]) -> impl Iterator<Item = (u8, &[u8])> {
    let mut rest = bytes;
    std::iter::from_fn(move || {
        let length = 4 + *rest.first()? as usize;
        let (record, behind) = (rest.get(..length)?, &rest[length..]);
        rest = behind;
        Some((record[2], &record[4..]))
    })
}

/// One record more; one that has no place in the case is passed over.
fn take(case: &mut Case, kind: u8, payload: &[u8]) {
    let byte = |at: usize| payload.get(at).copied().unwrap_or(0);
    let word = |at: usize| u32::from_le_bytes([byte(at), byte(at + 1), byte(at + 2), byte(at + 3)]);
    let place = byte(0) as usize;
    match kind {
        2 if place < case.first.len() => case.first[place] = word(1),
        3 if place < case.threads.len() => {
            case.threads[place].push(instruction_in(byte(1), byte(2), byte(3), word(4)))
        }
        4 if place < case.wants.len() => case.wants[place] = Some(word(1)),
        5 if place < case.passed.len() => case.passed[place] = byte(1),
        6 => case.run.push(step_in([byte(0), byte(1), byte(2), byte(3)])),
        _ => {}
    }
}

fn instruction_in(operation: u8, at: u8, register: u8, word: u32) -> Instruction {
    match operation {
        1 => Instruction::Store { at, word },
        2 => Instruction::StoreRegister { at, register },
        3 => Instruction::Load { at, register },
        4 => Instruction::Exchange { at, register, word },
        5 => Instruction::Flush { at },
        6 => Instruction::FlushOpt { at },
        7 => Instruction::Sfence,
        8 => Instruction::Mfence,
        9 => Instruction::Compare { at, register, word },
        other => unreachable!("operation {other} was read, and has no instruction"),
    }
}

pub fn step_in(payload: [u8; 4]) -> Step {
    let [thread, code, position, line] = payload;
    match code {
        0 => Step::Issue { thread },
        1 => Step::Move { thread, position },
        _ => Step::Persist { line },
    }
}
