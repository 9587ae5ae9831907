//! Frames whose answer is known by construction bear a mark in their field number, which lies
//! beyond all fields and so changes nothing; the value holds the expected number and offset.

use super::frame::Frame;

const FIRST_MARK: u32 = 65536;

/// A family of marked frames: its name and the least number of its frames.
pub struct Family {
    pub name: &'static str,
    pub least: u64,
}

const fn family(name: &'static str, least: u64) -> Family {
    Family { name, least }
}

/// The number in a name is the expected one; of two in one record it is the first, of two in two records that of
/// the record which comes first. A header is a program record: its
/// faults are named in the order of their checks.
pub const FAMILIES: [Family; 122] = [
    family("fault 1 (head)", 100),
    family("fault 1 (payload)", 100),
    family("fault 2", 100),
    family("fault 3", 100),
    family("fault 4", 100),
    family("fault 5", 100),
    family("fault 6", 100),
    family("fault 7", 100),
    family("fault 8", 100),
    family("fault 9", 100),
    family("fault 10", 300),
    family("faults 2+3", 100),
    family("faults 2+1 (payload)", 100),
    family("faults 2+4", 100),
    family("faults 3+1 (payload)", 100),
    family("faults 3+4", 100),
    family("faults 1 (payload)+4", 100),
    family("faults 1 (payload)+5", 100),
    family("faults 4+5", 100),
    family("faults 4+8", 100),
    family("faults 4+7", 100),
    family("faults 5+8", 100),
    family("faults 5+6", 100),
    family("faults 8+6", 100),
    family("faults 6+7", 100),
    family("faults 5+7", 100),
    family("faults 8+7", 100),
    family("faults 5+9", 100),
    family("faults 8+9", 100),
    family("faults 1 (head)+10", 60),
    family("faults 2+10", 60),
    family("faults 3+10", 60),
    family("faults 1 (payload)+10", 60),
    family("faults 4+10", 60),
    family("faults 5+10", 60),
    family("faults 8+10", 60),
    family("faults 6+10", 60),
    family("faults 7+10", 60),
    family("fault 1 (head), 10 before it", 40),
    family("fault 1 (payload), 10 before it", 40),
    family("fault 2, 10 before it", 40),
    family("fault 3, 10 before it", 40),
    family("fault 4, 10 before it", 40),
    family("fault 5, 10 before it", 40),
    family("fault 6, 10 before it", 40),
    family("fault 7, 10 before it", 40),
    family("fault 8, 10 before it", 40),
    family("fault 9, 10 before it", 40),
    family("fault 10, 10 before it", 40),
    family("fault 2, 10 behind it", 40),
    family("fault 3, 10 behind it", 40),
    family("fault 4, 10 behind it", 40),
    family("fault 5, 10 behind it", 40),
    family("fault 6, 10 behind it", 40),
    family("fault 7, 10 behind it", 40),
    family("fault 8, 10 behind it", 40),
    family("fault 9, 10 behind it", 40),
    family("fault 10, 10 behind it", 40),
    family("register set before", 200),
    family("register not set before", 200),
    family("valid file", 100),
    family("boundary accepted", 100),
    family("boundary refused", 100),
    family("limit: instructions", 40),
    family("beyond: instructions", 40),
    family("once a limit: instructions", 40),
    family("once 7: instructions", 40),
    family("limit: locations", 40),
    family("beyond: locations", 40),
    family("once a limit: locations", 40),
    family("once 5: locations", 40),
    family("limit: told lines", 40),
    family("beyond: told lines", 40),
    family("once a limit: told lines", 40),
    family("once 3: told lines", 40),
    family("limit: steps", 40),
    family("beyond: steps", 40),
    family("once a limit: steps", 40),
    family("once 9: steps", 40),
    family("limit: positions", 40),
    family("beyond: positions", 40),
    family("once a limit: positions", 40),
    family("once 5: positions", 40),
    family("limit: persisted lines", 40),
    family("beyond: persisted lines", 40),
    family("fault behind a longest file", 100),
    family("any bytes behind a valid file", 100),
    family("header: head", 60),
    family("header: kind", 60),
    family("header: outside", 60),
    family("header: cut", 60),
    family("header: misplaced", 60),
    family("header: range", 60),
    family("header: length", 60),
    family("header: order", 60),
    family("header: head+kind", 60),
    family("header: head+outside", 60),
    family("header: head+cut", 60),
    family("header: head+misplaced", 60),
    family("header: head+range", 60),
    family("header: head+length", 60),
    family("header: head+order", 60),
    family("header: kind+outside", 60),
    family("header: kind+cut", 60),
    family("header: kind+misplaced", 60),
    family("header: kind+range", 60),
    family("header: kind+length", 60),
    family("header: kind+order", 60),
    family("header: outside+cut", 60),
    family("header: outside+misplaced", 60),
    family("header: outside+range", 60),
    family("header: outside+order", 60),
    family("header: cut+misplaced", 60),
    family("header: cut+range", 60),
    family("header: cut+length", 60),
    family("header: cut+order", 60),
    family("header: misplaced+range", 60),
    family("header: misplaced+length", 60),
    family("header: misplaced+order", 60),
    family("header: range+length", 60),
    family("header: range+order", 60),
    family("header: length+order", 60),
];

/// What a marked frame must be answered.
pub struct Mark {
    pub family: usize,
    pub number: u8,
    pub offset: usize,
}

pub fn family_of(name: &str) -> usize {
    let found = FAMILIES.iter().position(|family| family.name == name);
    found.expect("a family is named as in the table")
}

pub fn marked(name: &str, number: u8, offset: usize, input: Vec<u8>, room: u32) -> Frame {
    Frame {
        input,
        field: FIRST_MARK + family_of(name) as u32,
        value: u32::from(number) + 256 * offset as u32,
        room,
    }
}

pub fn mark_of(frame: &Frame) -> Option<Mark> {
    let family = frame.field.checked_sub(FIRST_MARK)? as usize;
    FAMILIES.get(family)?;
    Some(Mark {
        family,
        number: (frame.value % 256) as u8,
        offset: (frame.value / 256) as usize,
    })
}
