//! Program records with one fault, or two whose checks both look at them, marked with the answer they
//! must get: the number of the check that comes first.

use super::records::Record;
use super::sketch::{any_layout, Sketch};
use super::spoil::{any_kind, strange_kind, whole, Faulty};
use crate::judge::case::{OWN_LINES, TOLD_LINES};
use crate::streams::cases::frame::Frame;
use crate::streams::layouts::Layout;
use crate::streams::random::Random;
use crate::streams::sizes::*;

/// A program record on its way into a file.
struct Header {
    before: Vec<Record>,
    kind: u16,
    version: u16,
    threads: u8,
    locations: u8,
    lines: Vec<u8>,
    /// The length that it tells, if not its own.
    length: Option<u16>,
    /// How many of its bytes are there, if not all.
    there: Option<usize>,
}

type Spoil = fn(&mut Random, &mut Header);

/// Name, number and maker of each fault, in the order in which they are looked for.
const FAULTS: [(&str, u8, Spoil); 8] = [
    ("head", 1, cut_head),
    ("kind", 2, |random, header| {
        header.kind = strange_kind(random)
    }),
    ("outside", 3, tell_outside),
    ("cut", 1, cut_payload),
    ("misplaced", 4, misplace),
    ("range", 5, leave_range),
    ("length", 3, tell_another),
    ("order", 8, disorder),
];

/// Places of some of them.
const OUTSIDE: usize = 2;
const LENGTH: usize = 6;
const ORDER: usize = 7;

/// Places in FAULTS: of one fault, or of two.
fn combinations() -> Vec<Vec<usize>> {
    let mut all: Vec<Vec<usize>> = (0..FAULTS.len()).map(|one| vec![one]).collect();
    for earlier in 0..FAULTS.len() {
        all.extend((earlier + 1..FAULTS.len()).map(|later| vec![earlier, later]));
    }
    // A length that no header has is not that of the version either.
    all.retain(|faults| faults[..] != [OUTSIDE, LENGTH]);
    all
}

pub fn all(random: &mut Random) -> Vec<Frame> {
    let mut frames = Vec::new();
    for faults in combinations() {
        frames.extend((0..60).map(|_| frame(random, &faults)));
    }
    frames
}

/// Any of them.
pub fn one(random: &mut Random) -> Frame {
    let all = combinations();
    let place = random.below(all.len());
    frame(random, &all[place])
}

fn frame(random: &mut Random, faults: &[usize]) -> Frame {
    let names: Vec<&str> = faults.iter().map(|&one| FAULTS[one].0).collect();
    let header = spoiled(random, faults);
    let faulty = header.faulty(random, FAULTS[faults[0]].1);
    super::faults::marked_faulty(random, &format!("header: {}", names.join("+")), faulty)
}

/// The last fault is put in first: what is cut off is so when all else is there.
fn spoiled(random: &mut Random, faults: &[usize]) -> Header {
    let disordered = faults.contains(&ORDER);
    loop {
        let mut header = Header::draw(random);
        for &fault in faults.iter().rev() {
            FAULTS[fault].2(random, &mut header);
        }
        // Another length may have lost the line that was out of order.
        if disordered == out_of_order(&header.lines) {
            return header;
        }
    }
}

fn out_of_order(lines: &[u8]) -> bool {
    (0..lines.len()).any(|at| {
        let next = lines[..at]
            .iter()
            .max()
            .map_or(0, |&last| u16::from(last) + 1);
        u16::from(lines[at]) > next
    })
}

impl Header {
    fn draw(random: &mut Random) -> Header {
        let layout = any_layout(random, 1);
        Header {
            before: Vec::new(),
            kind: 1,
            version: layout.version,
            threads: random.between(1, THREADS),
            locations: layout.locations(),
            lines: layout.told_lines().to_vec(),
            length: None,
            there: None,
        }
    }

    fn faulty(self, random: &mut Random, number: u8) -> Faulty {
        let mut payload = self.version.to_le_bytes().to_vec();
        payload.extend_from_slice(&[self.threads, self.locations]);
        payload.extend_from_slice(&self.lines);
        let length = self.length.unwrap_or(payload.len() as u16);
        if length < 300 && self.there.is_none() {
            payload.resize(length.into(), 0);
        }
        let kind = self.kind;
        let mut record = Record { kind, payload }.with_length(length);
        match self.there {
            None => whole(random, &self.before, record, number),
            Some(there) => {
                record.truncate(there);
                Faulty {
                    before: self.before,
                    record,
                    after: Vec::new(),
                    number,
                }
            }
        }
    }
}

/// Nothing at all is a fault only where the first record must start.
fn cut_head(random: &mut Random, header: &mut Header) {
    let least = usize::from(!header.before.is_empty());
    let any = least + random.below(HEAD - least);
    header.there = Some(random.pick(&[any, 2, 3]));
}

fn cut_payload(random: &mut Random, header: &mut Header) {
    let all = usize::from(SHORT_HEADER) + header.lines.len();
    let any = random.below(all);
    header.there = Some(HEAD + random.pick(&[any, all - 1]));
}

/// A cut record tells more than is there.
fn tell_outside(random: &mut Random, header: &mut Header) {
    let beyond = LONG_HEADER + 1;
    let any = beyond + random.below(usize::from(u16::MAX - beyond)) as u16;
    let (short, wrapped) = (256 + SHORT_HEADER, 256 + LONG_HEADER);
    let long = random.pick(&[beyond, beyond + 1, 255, 256, short, wrapped, 65535, any]);
    let short = random.pick(&[0, 1, 2, 3, 3]);
    let lengths: &[u16] = if header.there.is_some() {
        &[long]
    } else {
        &[long, short]
    };
    header.length = Some(random.pick(lengths));
}

fn misplace(random: &mut Random, header: &mut Header) {
    let sketch = Sketch::lively(random);
    let last = any_kind(random);
    header.before = sketch.before(last, sketch.sections[usize::from(last) - 1].len());
}

fn leave_range(random: &mut Random, header: &mut Header) {
    match random.below(3) {
        0 => header.version = random.pick(&[0, 3, 4, 255, 256, 257, 258, 512, 65535]),
        1 => header.threads = random.pick(&[0, THREADS + 1, THREADS + 2, 128, 255]),
        _ => header.locations = random.pick(&[0, LOCATIONS + 1, LOCATIONS + 2, 128, 255]),
    }
}

/// Lines in version 1, none or another number of them in version 2.
fn tell_another(random: &mut Random, header: &mut Header) {
    match (header.version, random.one_in(2)) {
        (OWN_LINES, true) => header.version = TOLD_LINES,
        (OWN_LINES, _) => header.lines = any_layout(random, 1).line,
        (_, true) => header.version = OWN_LINES,
        _ => {
            let others = (0..=LOCATIONS).filter(|&count| usize::from(count) != header.lines.len());
            let others: Vec<u8> = others.collect();
            header.lines.resize(random.pick(&others).into(), 0);
        }
    }
}

/// A line beyond the next new one.
fn disorder(random: &mut Random, header: &mut Header) {
    let layout = Layout::draw(random, header.locations);
    header.version = TOLD_LINES;
    header.lines = layout.line;
    let at = random.below(header.lines.len());
    let next = header.lines[..at].iter().max().map_or(0, |last| last + 1);
    header.lines[at] = random.beyond(next + 1);
}
