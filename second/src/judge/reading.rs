//! Reading a case: records from the left, the first faulty one decides.

use super::case::{Case, Instruction, Step};
use super::case::{MOST_INSTRUCTIONS, MOST_LOCATIONS, MOST_STEPS, OWN_LINES, TOLD_LINES};
use super::fields::{check_instruction, check_register, check_step};
use super::lines;
use super::refusal::*;

const HEAD: usize = 4;
/// Payload bytes of a program record before its lines.
const SIZES: usize = 4;

#[derive(Debug)]
pub struct Reading {
    /// 0, or the refusal number.
    pub number: u8,
    /// The input's length, or the offset of the faulty record's head.
    pub offset: usize,
    pub case: Case,
}

pub fn read(bytes: &[u8]) -> Reading {
    let mut reader = Reader::new();
    let mut offset = 0;
    // The end of the input is a place for a record only before the first one.
    while offset == 0 || offset < bytes.len() {
        match reader.take_record(&bytes[offset..]) {
            Ok(length) => offset += length,
            Err(number) => {
                return Reading {
                    number,
                    offset,
                    case: Case::empty(),
                }
            }
        }
    }
    Reading {
        number: 0,
        offset,
        case: reader.case,
    }
}

struct Reader {
    case: Case,
    /// Kind of the record before; 0 before the first.
    kind: u16,
    /// Thread or location of the record before, if it was of the same kind.
    before: Option<u8>,
}

impl Reader {
    fn new() -> Reader {
        Reader {
            case: Case::empty(),
            kind: 0,
            before: None,
        }
    }

    /// Takes the record at the front of the rest and gives its length, head included.
    fn take_record(&mut self, rest: &[u8]) -> Result<usize, u8> {
        require(rest.len() >= HEAD, CUT)?;
        let length = usize::from(u16::from_le_bytes([rest[0], rest[1]]));
        let kind = u16::from_le_bytes([rest[2], rest[3]]);
        let (least, most) = payload_lengths(kind).ok_or(UNKNOWN_KIND)?;
        require((least..=most).contains(&length), WRONG_LENGTH)?;
        let payload = rest.get(HEAD..HEAD + length).ok_or(CUT)?;
        self.follow(kind)?;
        match kind {
            1 => self.program(payload)?,
            2 => self.first_content(payload)?,
            3 => self.instruction(payload)?,
            4 => self.want(payload)?,
            5 => self.passed(payload)?,
            _ => self.step(payload)?,
        }
        Ok(HEAD + length)
    }

    /// Kind 1 first and only first; afterwards kinds never go down.
    fn follow(&mut self, kind: u16) -> Result<(), u8> {
        let in_place = if self.kind == 0 {
            kind == 1
        } else {
            kind > 1 && kind >= self.kind
        };
        require(in_place, KIND_OUT_OF_PLACE)?;
        if kind > self.kind {
            self.before = None;
        }
        self.kind = kind;
        Ok(())
    }

    fn rise(&mut self, number: u8) -> Result<(), u8> {
        let rises = self.before.map_or(true, |before| before < number);
        self.before = Some(number);
        require(rises, ORDER_BROKEN)
    }

    fn not_fall(&mut self, number: u8) -> Result<(), u8> {
        let falls = self.before.map_or(false, |before| before > number);
        self.before = Some(number);
        require(!falls, ORDER_BROKEN)
    }

    fn program(&mut self, payload: &[u8]) -> Result<(), u8> {
        let version = u16::from_le_bytes([payload[0], payload[1]]);
        let (threads, locations) = (payload[2], payload[3]);
        require((OWN_LINES..=TOLD_LINES).contains(&version), OUT_OF_RANGE)?;
        require(Case::sizes_fit(threads, locations), OUT_OF_RANGE)?;
        let lines = &payload[SIZES..];
        let told = if version == TOLD_LINES { locations } else { 0 };
        require(lines.len() == usize::from(told), WRONG_LENGTH)?;
        require(lines::count(lines).is_some(), UNUSED_NOT_ZERO)?;
        self.case = Case::of_size(threads, locations);
        if version == TOLD_LINES {
            self.case.set_lines(version, lines);
        }
        Ok(())
    }

    fn first_content(&mut self, payload: &[u8]) -> Result<(), u8> {
        let (location, word) = (payload[0], word_at(payload, 1));
        require(location < self.case.locations, OUT_OF_RANGE)?;
        require(word != 0, UNUSED_NOT_ZERO)?;
        self.rise(location)?;
        self.case.first[usize::from(location)] = word;
        Ok(())
    }

    fn instruction(&mut self, payload: &[u8]) -> Result<(), u8> {
        let thread = payload[0];
        let instruction = Instruction {
            operation: payload[1],
            location: payload[2],
            register: payload[3],
            word: word_at(payload, 4),
        };
        check_instruction(self.case.threads, self.case.locations, thread, &instruction)?;
        self.not_fall(thread)?;
        let count = &mut self.case.counts[usize::from(thread)];
        let index = usize::from(*count);
        require(index < MOST_INSTRUCTIONS, ONE_INSTRUCTION_TOO_MANY)?;
        let code = &mut self.case.code[Case::places(usize::from(thread))];
        check_register(&code[..index], &instruction)?;
        *count += 1;
        code[index] = instruction;
        Ok(())
    }

    fn want(&mut self, payload: &[u8]) -> Result<(), u8> {
        let (location, word) = (payload[0], word_at(payload, 1));
        require(location < self.case.locations, OUT_OF_RANGE)?;
        self.rise(location)?;
        self.case.wanted[usize::from(location)] = true;
        self.case.want[usize::from(location)] = word;
        Ok(())
    }

    fn passed(&mut self, payload: &[u8]) -> Result<(), u8> {
        let (thread, least) = (payload[0], payload[1]);
        require(thread < self.case.threads, OUT_OF_RANGE)?;
        let index = usize::from(thread);
        require(least <= self.case.counts[index], OUT_OF_RANGE)?;
        require(least != 0, UNUSED_NOT_ZERO)?;
        self.rise(thread)?;
        self.case.passed[index] = least;
        Ok(())
    }

    fn step(&mut self, payload: &[u8]) -> Result<(), u8> {
        let step = Step {
            thread: payload[0],
            code: payload[1],
            position: payload[2],
            line: payload[3],
        };
        check_step(self.case.threads, self.case.lines, &step)?;
        let index = usize::from(self.case.count);
        require(index < MOST_STEPS, ONE_STEP_TOO_MANY)?;
        self.case.steps[index] = step;
        self.case.count += 1;
        Ok(())
    }
}

/// The least and the most; how long a program record must be its version tells.
fn payload_lengths(kind: u16) -> Option<(usize, usize)> {
    match kind {
        1 => Some((SIZES, SIZES + MOST_LOCATIONS)),
        2 | 4 => Some((5, 5)),
        3 => Some((8, 8)),
        5 => Some((2, 2)),
        6 => Some((4, 4)),
        _ => None,
    }
}

fn word_at(payload: &[u8], at: usize) -> u32 {
    u32::from_le_bytes([
        payload[at],
        payload[at + 1],
        payload[at + 2],
        payload[at + 3],
    ])
}
