//! Programs and states in words, for whoever looks into a fault.

use super::point::Point;
use super::program::{code, Program};
use crate::judge::case::{Instruction, Step};
use crate::judge::machine::steps::printed;

pub fn program(program: &Program) -> String {
    let case = &program.case;
    let locations = usize::from(case.locations);
    let (firsts, lines) = (&case.first[..locations], &case.line[..locations]);
    let threads = (0..usize::from(case.threads)).map(|thread| {
        let code: Vec<String> = code(case, thread).iter().map(instruction).collect();
        format!("{{{}}}", code.join("; "))
    });
    let threads: Vec<String> = threads.collect();
    format!("program {firsts:?} lines {lines:?} {}", threads.join(" "))
}

/// x is a location, r a register.
fn instruction(one: &Instruction) -> String {
    let (at, register, word) = (one.location, one.register, one.word);
    match one.operation {
        1 => format!("x{at} = {word}"),
        2 => format!("x{at} = r{register}"),
        3 => format!("r{register} = x{at}"),
        4 => format!("exchange x{at} r{register} {word}"),
        5 => format!("flush x{at}"),
        6 => format!("flush-opt x{at}"),
        7 => "sfence".to_string(),
        9 => format!("compare x{at} r{register} {word}"),
        _ => "mfence".to_string(),
    }
}

/// A state, by a run that leads there and by what it has.
pub fn place(run: &[Step], point: &Point) -> String {
    let state = &point.state;
    let queues: Vec<_> = state.queues.iter().map(|queue| queue.used()).collect();
    let buffers: Vec<_> = state.buffers.iter().map(|buffer| buffer.used()).collect();
    format!(
        "behind '{}': words {:?} queues {queues:?} buffers {buffers:?} registers {:?} issued {:?}",
        printed(run),
        state.words,
        state.registers,
        state.issued
    )
}
