//! What frames and lines of all streams have in common.

use std::io::{self, ErrorKind, Read};

pub const MOST_ROOM: u32 = 8192;
/// Each byte of a lent buffer beforehand.
pub const UNTOUCHED: u8 = 0xA5;

/// The four numbers in front of a frame; none at the end of the stream.
pub fn read_head(stream: &mut impl Read) -> io::Result<Option<[u32; 4]>> {
    let mut head = [0; 16];
    let got = read_fully(stream, &mut head)?;
    if got == 0 {
        return Ok(None);
    }
    if got < head.len() {
        return Err(bad_frame());
    }
    let number = |i: usize| u32::from_le_bytes([head[i], head[i + 1], head[i + 2], head[i + 3]]);
    Ok(Some([number(0), number(4), number(8), number(12)]))
}

/// The next bytes of a frame, so many and no fewer.
pub fn read_part(stream: &mut impl Read, length: usize) -> io::Result<Vec<u8>> {
    let mut part = vec![0; length];
    if read_fully(stream, &mut part)? < length {
        return Err(bad_frame());
    }
    Ok(part)
}

pub fn bad_frame() -> io::Error {
    io::Error::new(ErrorKind::InvalidData, "a frame is cut or out of bounds")
}

/// Fills the buffer as far as the stream goes.
fn read_fully(stream: &mut impl Read, buffer: &mut [u8]) -> io::Result<usize> {
    let mut got = 0;
    while got < buffer.len() {
        match stream.read(&mut buffer[got..]) {
            Ok(0) => break,
            Ok(more) => got += more,
            Err(error) if error.kind() == ErrorKind::Interrupted => {}
            Err(error) => return Err(error),
        }
    }
    Ok(got)
}

/// Bytes that may be none: `-` then.
pub fn push_buffer(line: &mut String, bytes: &[u8]) {
    if bytes.is_empty() {
        line.push('-');
    }
    push_hex(line, bytes);
}

pub fn push_hex(line: &mut String, bytes: &[u8]) {
    for byte in bytes {
        for digit in [byte >> 4, byte & 15] {
            line.push(char::from(b"0123456789abcdef"[usize::from(digit)]));
        }
    }
}
