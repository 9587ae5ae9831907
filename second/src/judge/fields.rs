//! The fields that operations and step codes use, and the checks 5, 8 and 10 over them.

use super::case::{Instruction, Step, POSITIONS, REGISTERS};
use super::refusal::{require, OUT_OF_RANGE, UNSET_REGISTER, UNUSED_NOT_ZERO};

struct InstructionUses {
    location: bool,
    register: bool,
    word: bool,
}

struct StepUses {
    thread: bool,
    position: bool,
    line: bool,
}

fn instruction_uses(operation: u8) -> Option<InstructionUses> {
    let (location, register, word) = match operation {
        1 => (true, false, true),
        2 | 3 => (true, true, false),
        4 | 9 => (true, true, true),
        5 | 6 => (true, false, false),
        7 | 8 => (false, false, false),
        _ => return None,
    };
    Some(InstructionUses {
        location,
        register,
        word,
    })
}

fn step_uses(code: u8) -> Option<StepUses> {
    let (thread, position, line) = match code {
        0 => (true, false, false),
        1 => (true, true, false),
        2 => (false, false, true),
        _ => return None,
    };
    Some(StepUses {
        thread,
        position,
        line,
    })
}

/// A used field stays below its bound, else 5.
fn in_range(used: bool, value: u8, bound: u8) -> Result<(), u8> {
    require(!used || value < bound, OUT_OF_RANGE)
}

/// An unused field is 0, else 8.
fn blank(used: bool, value: u32) -> Result<(), u8> {
    require(used || value == 0, UNUSED_NOT_ZERO)
}

/// 5, then 8, for an instruction of a thread.
pub fn check_instruction(
    threads: u8,
    locations: u8,
    thread: u8,
    instruction: &Instruction,
) -> Result<(), u8> {
    let uses = instruction_uses(instruction.operation).ok_or(OUT_OF_RANGE)?;
    in_range(true, thread, threads)?;
    in_range(uses.location, instruction.location, locations)?;
    in_range(uses.register, instruction.register, REGISTERS)?;
    blank(uses.location, instruction.location.into())?;
    blank(uses.register, instruction.register.into())?;
    blank(uses.word, instruction.word)
}

/// 10, for an instruction behind those of its thread that stand before it. A compare is held against what
/// its register has before it, which its own reading comes too late for.
pub fn check_register(before: &[Instruction], instruction: &Instruction) -> Result<(), u8> {
    let takes = [2, 9].contains(&instruction.operation);
    let sets = |one: &Instruction| {
        [3, 4, 9].contains(&one.operation) && one.register == instruction.register
    };
    require(!takes || before.iter().any(sets), UNSET_REGISTER)
}

/// 5, then 8, for a step.
pub fn check_step(threads: u8, lines: u8, step: &Step) -> Result<(), u8> {
    let uses = step_uses(step.code).ok_or(OUT_OF_RANGE)?;
    in_range(uses.thread, step.thread, threads)?;
    in_range(uses.position, step.position, POSITIONS)?;
    in_range(uses.line, step.line, lines)?;
    blank(uses.thread, step.thread.into())?;
    blank(uses.position, step.position.into())?;
    blank(uses.line, step.line.into())
}
