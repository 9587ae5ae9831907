//! The statements of a text: their first words, what follows each, and the instructions and steps that they say.

use super::operands::low;
use crate::case::{Instruction, Step};
use crate::messages::Expected;

/// What follows an exchange's or a compare's first word.
const SWAP: &[Expected] = &[Expected::Location, Expected::Register, Expected::Number];

/// Each instruction's first word and what follows it. A compare has two: the first is the one that a text is laid out with.
pub const INSTRUCTIONS: [(&str, &[Expected]); 9] = [
    ("store", &[Expected::Location, Expected::NumberOrRegister]),
    ("load", &[Expected::Location, Expected::Register]),
    ("xchg", SWAP),
    ("cmpxchg", SWAP),
    ("cas", SWAP),
    ("clflush", &[Expected::Location]),
    ("clflushopt", &[Expected::Location]),
    ("sfence", &[]),
    ("mfence", &[]),
];

pub const STEPS: [(&str, &[Expected]); 3] = [
    ("issue", &[Expected::Thread]),
    ("move", &[Expected::Thread, Expected::Position]),
    ("persist", &[Expected::Location]),
];

const OTHERS: [&str; 7] = [
    "locations",
    "first",
    "thread",
    "want",
    "passed",
    "run",
    "line",
];

/// A step as it is written. A location lies on the line that a statement behind it may still give.
pub enum Written {
    Step(Step),
    Persist { at: u8 },
}

impl Written {
    /// The step itself, once the line of each location is known.
    pub fn step(&self, lines: &[u8]) -> Step {
        match *self {
            Written::Step(step) => step,
            Written::Persist { at } => Step::Persist {
                line: lines[at as usize],
            },
        }
    }
}

/// One word behind a statement's first, understood.
pub struct Operand {
    pub value: u32,
    pub is_register: bool,
    pub column: usize,
}

pub fn known_words() -> impl Iterator<Item = &'static str> {
    let instructions = INSTRUCTIONS.iter().map(|(name, _)| *name);
    instructions
        .chain(STEPS.iter().map(|(name, _)| *name))
        .chain(OTHERS)
}

pub fn instruction_of(name: &str, found: &[Operand]) -> Instruction {
    let at = found.first().map_or(0, |operand| low(operand.value));
    match name {
        "store" if found[1].is_register => Instruction::StoreRegister {
            at,
            register: low(found[1].value),
        },
        "store" => Instruction::Store {
            at,
            word: found[1].value,
        },
        "load" => Instruction::Load {
            at,
            register: low(found[1].value),
        },
        "xchg" => Instruction::Exchange {
            at,
            register: low(found[1].value),
            word: found[2].value,
        },
        "cmpxchg" | "cas" => Instruction::Compare {
            at,
            register: low(found[1].value),
            word: found[2].value,
        },
        "clflush" => Instruction::Flush { at },
        "clflushopt" => Instruction::FlushOpt { at },
        "sfence" => Instruction::Sfence,
        "mfence" => Instruction::Mfence,
        other => unreachable!("{other} is among the statements, and has no instruction"),
    }
}

pub fn step_of(name: &str, found: &[Operand]) -> Written {
    let first = low(found[0].value);
    match name {
        "issue" => Written::Step(Step::Issue { thread: first }),
        "move" => Written::Step(Step::Move {
            thread: first,
            position: low(found[1].value),
        }),
        "persist" => Written::Persist { at: first },
        other => unreachable!("{other} is among the steps, and has no code"),
    }
}
