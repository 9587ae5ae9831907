//! Refusal numbers of documents 01 and 02 and the one way to raise them.

pub const CUT: u8 = 1;
pub const UNKNOWN_KIND: u8 = 2;
pub const WRONG_LENGTH: u8 = 3;
pub const KIND_OUT_OF_PLACE: u8 = 4;
pub const OUT_OF_RANGE: u8 = 5;
pub const ORDER_BROKEN: u8 = 6;
pub const ONE_INSTRUCTION_TOO_MANY: u8 = 7;
/// Of a program record: line numbers out of order.
pub const UNUSED_NOT_ZERO: u8 = 8;
pub const ONE_STEP_TOO_MANY: u8 = 9;
/// A register is stored or compared that nothing before has set.
pub const UNSET_REGISTER: u8 = 10;
pub const BUFFER_TOO_SHORT: u8 = 31;
pub const READS_FROM_NO_BYTES: u8 = 32;
pub const STATE_DOES_NOT_FIT: u8 = 33;

/// A check: the number when the condition does not hold.
pub fn require(holds: bool, number: u8) -> Result<(), u8> {
    if holds {
        Ok(())
    } else {
        Err(number)
    }
}
