//! Each field at its last good and its first bad value.

use super::records::*;
use crate::judge::case::{MOST_LOCATIONS, POSITIONS};
use crate::streams::cases::frame::Frame;
use crate::streams::cases::marks::marked;
use crate::streams::layouts::Layout;
use crate::streams::random::Random;
use crate::streams::registers::takes;
use crate::streams::sizes::*;

/// The last record decides: its number is 0 or what it must be refused with.
struct Edge {
    records: Vec<Record>,
    number: u8,
}

pub fn all(random: &mut Random) -> Vec<Frame> {
    let mut edges = programs();
    edges.extend(lengths());
    edges.extend(lines());
    for (threads, locations) in [
        (1, 1),
        (1, LOCATIONS),
        (THREADS, 1),
        (THREADS, LOCATIONS),
        (2, 3),
        (3, 5),
    ] {
        edges.extend(behind_program(threads, &Layout::own(locations)));
        edges.extend(passed(random, threads, locations));
    }
    let all = (0..LOCATIONS).collect::<Vec<u8>>();
    for line in [
        &[0][..],
        &[0; MOST_LOCATIONS],
        &all,
        &[0, 0],
        &[0, 1, 0],
        &[0, 0, 1, 1, 2],
    ] {
        edges.extend(behind_program(2, &Layout::told(line)));
    }
    let name = |edge: &Edge| match edge.number {
        0 => "boundary accepted",
        _ => "boundary refused",
    };
    edges
        .iter()
        .map(|edge| frame(random, name(edge), &edge.records, edge.number))
        .collect()
}

/// The last record decides.
pub fn frame(random: &mut Random, name: &str, records: &[Record], number: u8) -> Frame {
    let input = join(records);
    let offset = match number {
        0 => input.len(),
        _ => join(&records[..records.len() - 1]).len(),
    };
    let length = input.len() as u32;
    let room = random.pick(&[0, 8, length, length, length - 1, length + 3]);
    marked(name, number, offset, input, room)
}

fn or(good: bool, number: u8) -> u8 {
    if good {
        0
    } else {
        number
    }
}

/// A record of each kind behind a program record, each field at its ends.
fn behind_program(threads: u8, layout: &Layout) -> Vec<Edge> {
    let locations = layout.locations();
    let mut records = words(locations);
    records.extend(operations(threads, locations));
    records.extend(steps(threads, layout.lines()));
    let behind = records.into_iter().map(|(record, number)| Edge {
        records: [
            vec![program(threads, layout)],
            loaded(threads, &record),
            vec![record],
        ]
        .concat(),
        number,
    });
    behind.collect()
}

/// What an instruction's register needs before it: without it there would be two faults, or one where there
/// is to be none.
fn loaded(threads: u8, record: &Record) -> Vec<Record> {
    match record.payload[..] {
        [thread, operation, _, register @ 0..=3, ..]
            if record.kind == 3 && takes(operation) && thread < threads =>
        {
            vec![instruction([thread, 3, 0, register], 0)]
        }
        _ => Vec::new(),
    }
}

/// A program record alone.
fn alone(payload: &[u8], number: u8) -> Edge {
    Edge {
        records: vec![Record::new(1, payload)],
        number,
    }
}

/// Ranges, with the length that the version has, or with the least one.
fn programs() -> Vec<Edge> {
    let mut edges = Vec::new();
    let mut try_payload = |payload: [u8; 4], good: bool| {
        edges.push(alone(&payload, or(good, 5)));
    };
    let (threads_good, locations_good) = (
        |threads: u8| (1..=THREADS).contains(&threads),
        |locations: u8| (1..=LOCATIONS).contains(&locations),
    );
    for threads in [0, 1, 2, THREADS - 1, THREADS, THREADS + 1, 255] {
        for locations in [0, 1, LOCATIONS - 1, LOCATIONS, LOCATIONS + 1, 255] {
            let good = threads_good(threads) && locations_good(locations);
            try_payload([1, 0, threads, locations], good);
        }
    }
    for version in [0u16, 1, 3, 255, 256, 257, 258, 512, 65535] {
        let [low, high] = version.to_le_bytes();
        try_payload([low, high, THREADS, LOCATIONS], version == 1);
        try_payload([low, high, 1, 1], version == 1);
    }
    for threads in [0, 1, THREADS, THREADS + 1, 255] {
        let number = or(threads_good(threads), 5);
        edges.push(alone(&[2, 0, threads, 2, 0, 0], number));
    }
    for locations in [0, 1, LOCATIONS, LOCATIONS + 1, 255] {
        let lines = vec![0; usize::from(locations.min(LOCATIONS))];
        let payload = [&[2, 0, 1, locations], &lines[..]].concat();
        edges.push(alone(&payload, or(locations_good(locations), 5)));
    }
    for version in [0u16, 2, 3, 256, 257, 258, 512, 514, 65535] {
        let payload = [&version.to_le_bytes()[..], &[1, 3, 0, 1, 0]].concat();
        edges.push(alone(&payload, or(version == 2, 5)));
    }
    edges
}

/// Every length up to one beyond the longest, of both versions, with each number of locations and lines in
/// order.
fn lengths() -> Vec<Edge> {
    let mut edges = Vec::new();
    for locations in 1..=LOCATIONS {
        let told = SHORT_HEADER + u16::from(locations);
        for (version, right) in [(1, SHORT_HEADER), (2, told)] {
            for length in SHORT_HEADER - 1..=LONG_HEADER + 1 {
                let mut payload = vec![version, 0, 1, locations];
                payload.resize(length.into(), 0);
                edges.push(alone(&payload, or(length == right, 3)));
            }
        }
    }
    edges
}

/// Each line byte at its last good value and beyond it, behind lines that are seen or all new.
fn lines() -> Vec<Edge> {
    let mut edges = Vec::new();
    let places = (0..LOCATIONS).flat_map(|at| [(at, at), (at, at.min(1)), (at, at.min(2))]);
    for (at, seen) in places {
        let before = (0..at).map(|one| one.min(seen.saturating_sub(1)));
        let before: Vec<u8> = before.collect();
        for next in [0, seen, seen + 1, 127, 128, 254, 255] {
            let mut payload = [&[2, 0, 1, LOCATIONS][..], &before, &[next]].concat();
            payload.resize(LONG_HEADER.into(), 0);
            edges.push(alone(&payload, or(next <= seen, 8)));
        }
    }
    edges.push(alone(&[2, 0, 1, 2, 0, 2], 8));
    edges.push(alone(&[2, 0, 1, 2, 1, 0], 8));
    edges.push(alone(&[2, 0, 1, 2, 0, 0, 0], 3));
    edges
}

/// Threads, locations or lines at the end of the program and beyond it.
fn ends(size: u8) -> [(u8, bool); 4] {
    [(0, true), (size - 1, true), (size, false), (255, false)]
}

fn words(locations: u8) -> Vec<(Record, u8)> {
    let mut tried = Vec::new();
    for (location, good) in ends(locations) {
        for word in [1, 256, u32::MAX] {
            tried.push((placed_word(2, location, word), or(good, 5)));
            tried.push((placed_word(4, location, word), or(good, 5)));
        }
        tried.push((placed_word(2, location, 0), if good { 8 } else { 5 }));
        tried.push((placed_word(4, location, 0), or(good, 5)));
    }
    tried
}

fn operations(threads: u8, locations: u8) -> Vec<(Record, u8)> {
    let mut tried = Vec::new();
    for operation in [0, 10, 11, 255] {
        tried.push((instruction([0, operation, 0, 0], 0), 5));
    }
    for (operation, uses) in (1..).zip(OPERATION_USES) {
        for (thread, good) in ends(threads) {
            tried.push((instruction([thread, operation, 0, 0], 0), or(good, 5)));
        }
        for (location, good) in ends(locations) {
            let number = field_number(uses[0], location, good);
            tried.push((instruction([0, operation, location, 0], 0), number));
        }
        for (register, good) in [(3, true), (4, false), (255, false)] {
            let number = field_number(uses[1], register, good);
            tried.push((instruction([0, operation, 0, register], 0), number));
        }
        for byte in 0..4 {
            let number = or(uses[2], 8);
            tried.push((instruction([0, operation, 0, 0], 1 << (8 * byte)), number));
        }
    }
    tried
}

/// What one field, used or not, is refused with when all others are good.
fn field_number(used: bool, value: u8, good: bool) -> u8 {
    if used {
        or(good, 5)
    } else {
        or(value == 0, 8)
    }
}

fn steps(threads: u8, lines: u8) -> Vec<(Record, u8)> {
    let mut tried = Vec::new();
    for code in [3, 4, 255] {
        tried.push((Record::new(6, &[0, code, 0, 0]), 5));
    }
    for (code, uses) in (0..).zip(CODE_USES) {
        for (thread, good) in ends(threads) {
            let number = field_number(uses[0], thread, good);
            tried.push((Record::new(6, &[thread, code, 0, 0]), number));
        }
        for (position, good) in [(POSITIONS - 1, true), (POSITIONS, false), (255, false)] {
            let number = field_number(uses[1], position, good);
            tried.push((Record::new(6, &[0, code, position, 0]), number));
        }
        for (line, good) in ends(lines) {
            let number = field_number(uses[2], line, good);
            tried.push((Record::new(6, &[0, code, 0, line]), number));
        }
    }
    tried
}

/// Passed counts 0, 1, all instructions, one more, and for a thread the program lacks.
fn passed(random: &mut Random, threads: u8, locations: u8) -> Vec<Edge> {
    let mut edges = Vec::new();
    for count in [0u8, 1, 5, INSTRUCTIONS] {
        for (thread, there) in ends(threads) {
            for least in [0, 1, count, count + 1, INSTRUCTIONS + 1, 255] {
                let mut records = vec![program(threads, &Layout::own(locations))];
                let issuer = if there { thread } else { 0 };
                records.extend(random_thread(random, issuer, count, locations));
                records.push(Record::new(5, &[thread, least]));
                let number = match least {
                    _ if !there || least > count => 5,
                    0 => 8,
                    _ => 0,
                };
                edges.push(Edge { records, number });
            }
        }
    }
    edges
}
