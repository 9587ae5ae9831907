//! Writing a case into a lent buffer.

use super::case::{Case, Step, TOLD_LINES};
use super::form::fits;
use super::refusal::{BUFFER_TOO_SHORT, READS_FROM_NO_BYTES};

/// The number and the length; a refusal has length 0 and leaves the buffer as it was.
pub fn write(case: &Case, lent: &mut [u8]) -> (u8, usize) {
    if !fits(case) {
        return (READS_FROM_NO_BYTES, 0);
    }
    let file = encode(case);
    if lent.len() < file.len() {
        return (BUFFER_TOO_SHORT, 0);
    }
    lent[..file.len()].copy_from_slice(&file);
    (0, file.len())
}

/// The file of a case. Counts beyond their arrays are cut, so it answers for any case.
pub fn encode(case: &Case) -> Vec<u8> {
    let mut file = Vec::new();
    let sizes = [case.threads, case.locations];
    put(
        &mut file,
        1,
        &[&case.version.to_le_bytes(), &sizes, told_lines(case)],
    );
    for (location, word) in (0..).zip(case.first) {
        if word != 0 {
            put(&mut file, 2, &[&[location], &word.to_le_bytes()]);
        }
    }
    encode_instructions(case, &mut file);
    for (location, word) in (0..).zip(case.want) {
        if case.wanted[usize::from(location)] {
            put(&mut file, 4, &[&[location], &word.to_le_bytes()]);
        }
    }
    for (thread, least) in (0u8..).zip(case.passed) {
        if least != 0 {
            put(&mut file, 5, &[&[thread, least]]);
        }
    }
    let steps = case.steps.len().min(case.count.into());
    file.extend(encode_steps(&case.steps[..steps]));
    file
}

fn told_lines(case: &Case) -> &[u8] {
    match case.version {
        TOLD_LINES => &case.line[..case.line.len().min(case.locations.into())],
        _ => &[],
    }
}

/// The records of a run.
pub fn encode_steps(run: &[Step]) -> Vec<u8> {
    let mut records = Vec::new();
    for step in run {
        let fields = [step.thread, step.code, step.position, step.line];
        put(&mut records, 6, &[&fields]);
    }
    records
}

fn encode_instructions(case: &Case, file: &mut Vec<u8>) {
    for (thread, count) in (0u8..).zip(case.counts) {
        let all = &case.code[Case::places(thread.into())];
        for one in all.iter().take(count.into()) {
            let fields = [thread, one.operation, one.location, one.register];
            put(file, 3, &[&fields, &one.word.to_le_bytes()]);
        }
    }
}

fn put(file: &mut Vec<u8>, kind: u16, parts: &[&[u8]]) {
    let length: usize = parts.iter().map(|part| part.len()).sum();
    file.extend_from_slice(&(length as u16).to_le_bytes());
    file.extend_from_slice(&kind.to_le_bytes());
    for part in parts {
        file.extend_from_slice(part);
    }
}
