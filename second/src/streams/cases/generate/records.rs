//! Records in range, made apart from the reader and the writer, so that a fault put into one
//! is known by construction.

use crate::judge::case::{POSITIONS, REGISTERS};
use crate::streams::layouts::Layout;
use crate::streams::random::Random;
use crate::streams::registers::{Registers, EVERY};
use crate::streams::sizes::{LONG_HEADER, SHORT_HEADER};

/// Location, register, word: which of them operations 1 to 9 use.
pub const OPERATION_USES: [[bool; 3]; 9] = [
    [true, false, true],
    [true, true, false],
    [true, true, false],
    [true, true, true],
    [true, false, false],
    [true, false, false],
    [false, false, false],
    [false, false, false],
    [true, true, true],
];

/// Thread, position, line: which of them step codes 0 to 2 use.
pub const CODE_USES: [[bool; 3]; 3] = [
    [true, false, false],
    [true, true, false],
    [false, false, true],
];

/// The least and the most payload bytes of kinds 1 to 6.
pub const LENGTHS: [(u16, u16); 6] = [
    (SHORT_HEADER, LONG_HEADER),
    (5, 5),
    (8, 8),
    (5, 5),
    (2, 2),
    (4, 4),
];

#[derive(Clone, Debug)]
pub struct Record {
    pub kind: u16,
    pub payload: Vec<u8>,
}

impl Record {
    pub fn new(kind: u16, payload: &[u8]) -> Record {
        Record {
            kind,
            payload: payload.to_vec(),
        }
    }

    pub fn bytes(&self) -> Vec<u8> {
        self.with_length(self.payload.len() as u16)
    }

    /// The record with a length of its own telling.
    pub fn with_length(&self, length: u16) -> Vec<u8> {
        let mut bytes = length.to_le_bytes().to_vec();
        bytes.extend_from_slice(&self.kind.to_le_bytes());
        bytes.extend_from_slice(&self.payload);
        bytes
    }
}

pub fn join(records: &[Record]) -> Vec<u8> {
    records.iter().flat_map(Record::bytes).collect()
}

pub fn program(threads: u8, layout: &Layout) -> Record {
    let mut payload = layout.version.to_le_bytes().to_vec();
    payload.extend_from_slice(&[threads, layout.locations()]);
    payload.extend_from_slice(layout.told_lines());
    Record { kind: 1, payload }
}

pub fn placed_word(kind: u16, location: u8, word: u32) -> Record {
    let mut payload = vec![location];
    payload.extend_from_slice(&word.to_le_bytes());
    Record { kind, payload }
}

pub fn instruction(fields: [u8; 4], word: u32) -> Record {
    let mut payload = fields.to_vec();
    payload.extend_from_slice(&word.to_le_bytes());
    Record { kind: 3, payload }
}

pub fn random_instruction(random: &mut Random, thread: u8, locations: u8) -> Record {
    let operation = random.pick(&EVERY);
    let [location, register, word] = OPERATION_USES[usize::from(operation) - 1];
    let fields = [
        thread,
        operation,
        if location {
            random.between(0, locations - 1)
        } else {
            0
        },
        if register {
            random.between(0, REGISTERS - 1)
        } else {
            0
        },
    ];
    instruction(fields, if word { random.word() } else { 0 })
}

/// So many instructions of a thread, which may stand in a file.
pub fn random_thread(random: &mut Random, thread: u8, count: u8, locations: u8) -> Vec<Record> {
    let mut registers = Registers::default();
    let one = |_| {
        let mut record = random_instruction(random, thread, locations);
        if let [_, operation, _, register, ..] = &mut record.payload[..] {
            registers.mend(random, operation, register);
        }
        record
    };
    (0..count).map(one).collect()
}

pub fn random_step(random: &mut Random, threads: u8, lines: u8) -> Record {
    let code = random.between(0, 2);
    let [thread, position, line] = CODE_USES[usize::from(code)];
    let payload = [
        if thread {
            random.between(0, threads - 1)
        } else {
            0
        },
        code,
        if position {
            random.between(0, POSITIONS - 1)
        } else {
            0
        },
        if line {
            random.between(0, lines - 1)
        } else {
            0
        },
    ];
    Record::new(6, &payload)
}
