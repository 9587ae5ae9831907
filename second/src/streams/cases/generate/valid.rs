//! Valid files of all sizes, written again into buffers of telling sizes.

use super::records::program;
use super::sketch::Sketch;
use crate::streams::cases::frame::Frame;
use crate::streams::cases::marks::marked;
use crate::streams::layouts::Layout;
use crate::streams::random::Random;
use crate::streams::sizes::{LOCATIONS, THREADS};
use crate::streams::wire::MOST_ROOM;

/// The 50 bytes of the second row of document 01.
pub const ROW: [u8; 50] = [
    0x04, 0x00, 0x01, 0x00, 0x01, 0x00, 0x01, 0x02, 0x08, 0x00, 0x03, 0x00, 0x00, 0x01, 0x00, 0x00,
    0xF4, 0x01, 0x00, 0x00, 0x08, 0x00, 0x03, 0x00, 0x00, 0x01, 0x01, 0x00, 0x01, 0x00, 0x00, 0x00,
    0x05, 0x00, 0x04, 0x00, 0x00, 0x00, 0x00, 0x00, 0x00, 0x05, 0x00, 0x04, 0x00, 0x01, 0x01, 0x00,
    0x00, 0x00,
];

pub fn all(random: &mut Random) -> Vec<Frame> {
    let mut files = vec![ROW.to_vec()];
    for locations in 1..=LOCATIONS {
        let threads = 1 + locations % THREADS;
        files.push(program(threads, &Layout::own(locations)).bytes());
        files.push(program(threads, &Layout::draw(random, locations)).bytes());
    }
    for _ in 0..20 {
        files.push(Sketch::longest(random).bytes());
    }
    for _ in 0..300 {
        files.push(Sketch::any(random).bytes());
    }
    files
        .iter()
        .flat_map(|file| in_rooms(random, file))
        .collect()
}

pub fn some(random: &mut Random) -> Vec<Frame> {
    (0..10)
        .flat_map(|_| {
            let file = Sketch::any(random).bytes();
            in_rooms(random, &file)
        })
        .collect()
}

/// Just enough room, some more, one byte less, less, none, the most.
fn in_rooms(random: &mut Random, file: &[u8]) -> Vec<Frame> {
    let length = file.len() as u32;
    let more = length + 1 + random.below(40) as u32;
    let less = random.below(file.len()) as u32;
    let mut rooms = vec![length, more, length - 1, less, 0];
    if random.one_in(4) {
        rooms.push(MOST_ROOM);
    }
    rooms
        .into_iter()
        .map(|room| marked("valid file", 0, file.len(), file.to_vec(), room))
        .collect()
}
