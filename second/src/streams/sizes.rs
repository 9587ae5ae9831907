//! The sizes as the streams draw and count by them, and what follows from them in bytes.

use crate::judge::case::{ALL_CODE, MOST_INSTRUCTIONS, MOST_LOCATIONS, MOST_STEPS, MOST_THREADS};
use crate::judge::machine::state::QUEUE_ROOM;

pub const THREADS: u8 = MOST_THREADS as u8;
pub const LOCATIONS: u8 = MOST_LOCATIONS as u8;
/// Of a thread; so many entries a store buffer has.
pub const INSTRUCTIONS: u8 = MOST_INSTRUCTIONS as u8;
/// Entries of a queue.
pub const QUEUED: u8 = QUEUE_ROOM as u8;

/// Bytes before a record's payload.
pub const HEAD: usize = 4;
/// Payload bytes of a program record: without lines, and with the most.
pub const SHORT_HEADER: u16 = 4;
pub const LONG_HEADER: u16 = SHORT_HEADER + MOST_LOCATIONS as u16;
/// Bytes of the longest record.
pub const LONGEST_RECORD: usize = HEAD + LONG_HEADER as usize;

/// Bytes of the longest file: every record that there can be, that of the program with all lines.
pub const LONGEST: usize = LONGEST_RECORD
    + 2 * (HEAD + 5) * MOST_LOCATIONS
    + (HEAD + 8) * ALL_CODE
    + (HEAD + 2) * MOST_THREADS
    + (HEAD + 4) * MOST_STEPS;
/// The same in version 1, whose program record has no lines.
pub const LONGEST_OWN: usize = LONGEST - MOST_LOCATIONS;
