//! Valid files damaged without regard to what the damage means.

use super::records::*;
use super::sketch::Sketch;
use super::valid::ROW;
use crate::judge::ask::RECORD;
use crate::judge::case::MOST_LOCATIONS;
use crate::streams::cases::frame::{Frame, MOST_INPUT};
use crate::streams::cases::marks::marked;
use crate::streams::layouts::Layout;
use crate::streams::random::Random;
use crate::streams::sizes::*;

fn plain(random: &mut Random, input: Vec<u8>) -> Frame {
    let length = input.len().min(LONGEST) as u32;
    Frame {
        room: random.pick(&[0, 7, 8, 16, 16, length, length + 8]),
        input,
        field: 0,
        value: 0,
    }
}

/// Every length of several files, the longest of both versions among them.
pub fn truncated(random: &mut Random) -> Vec<Frame> {
    let files = [
        ROW.to_vec(),
        Sketch::lively(random).bytes(),
        Sketch::lively(random).bytes(),
        longest(random, LONGEST_OWN),
        longest(random, LONGEST),
    ];
    let mut frames = Vec::new();
    for file in files {
        for length in 0..=file.len() {
            frames.push(plain(random, file[..length].to_vec()));
        }
    }
    frames
}

/// A file of the greatest size that is as long.
fn longest(random: &mut Random, length: usize) -> Vec<u8> {
    loop {
        let file = Sketch::longest(random).bytes();
        if file.len() == length {
            return file;
        }
    }
}

/// Every bit of the row's file and of headers with lines, every byte of others.
pub fn flipped(random: &mut Random) -> Vec<Frame> {
    let mut frames = Vec::new();
    let many = [0, 1, 0, 2, 1, 3, 3, 0, 4, 5, 4, 6, 7, 2, 8, 9];
    let layouts = [&[0, 1][..], &[0, 0, 1], &many];
    let headers = layouts.map(|line| program(2, &Layout::told(line)).bytes());
    for file in [ROW.to_vec()].into_iter().chain(headers) {
        for at in 0..file.len() * 8 {
            let mut file = file.clone();
            file[at / 8] ^= 1 << (at % 8);
            frames.push(plain(random, file));
        }
    }
    let files = [
        Sketch::lively(random).bytes(),
        Sketch::lively(random).bytes(),
        Sketch::any(random).bytes(),
        Sketch::longest(random).bytes(),
    ];
    for file in files {
        for at in 0..file.len() {
            let mut damaged = file.clone();
            let mask = 1 << random.below(8);
            damaged[at] ^= random.pick(&[mask, mask, mask, 255]);
            frames.push(plain(random, damaged));
        }
    }
    frames
}

pub fn shuffled(random: &mut Random) -> Vec<Frame> {
    (0..1200).map(|turn| shuffle(random, turn)).collect()
}

/// A batch of record and byte damage on files of any size.
pub fn some(random: &mut Random) -> Vec<Frame> {
    (0..50)
        .map(|turn| {
            if turn % 2 == 0 {
                return shuffle(random, turn / 2);
            }
            let mut file = Sketch::any(random).bytes();
            for _ in 0..1 + random.below(2) {
                let at = random.below(file.len());
                file[at] = random.pick(&[0, 1, 2, 3, 4, 5, 6, 8, 9, 255]);
            }
            plain(random, file)
        })
        .collect()
}

/// Records swapped, repeated, deleted or moved.
fn shuffle(random: &mut Random, turn: usize) -> Frame {
    let mut records = if random.one_in(8) {
        Sketch::any(random).records()
    } else {
        Sketch::lively(random).records()
    };
    let (a, b) = (random.below(records.len()), random.below(records.len()));
    match turn % 4 {
        0 => records.swap(a, b),
        1 => records.insert(a, records[a].clone()),
        2 => {
            records.remove(a);
        }
        _ => {
            let moved = records.remove(a);
            records.insert(b.min(records.len()), moved);
        }
    }
    plain(random, join(&records))
}

/// One to three bytes behind a valid file, and a few more.
pub fn tailed(random: &mut Random) -> Vec<Frame> {
    let mut frames = vec![plain(random, Vec::new())];
    for turn in 0..400 {
        let mut file = Sketch::lively(random).bytes();
        let length = 1 + turn % 5;
        let junk = random.bytes(length);
        let zeros = vec![0; length];
        let tail = if random.one_in(2) { junk } else { zeros };
        file.extend_from_slice(&tail);
        frames.push(plain(random, file));
    }
    frames
}

/// 64 KiB each.
pub fn large(random: &mut Random) -> Vec<Frame> {
    const SIZE: usize = MOST_INPUT as usize;
    let longest = longest(random, LONGEST);
    let steps: Vec<u8> = (0..SIZE / RECORD)
        .flat_map(|_| random_step(random, THREADS, 1).bytes())
        .collect();
    let starts = [
        Vec::new(),
        longest.clone(),
        longest[..LONGEST_RECORD].to_vec(),
        Sketch::lively(random).bytes(),
    ];
    let mut inputs = Vec::new();
    for start in starts {
        let fillings = [vec![0; SIZE], random.bytes(SIZE), steps.clone()];
        for filling in fillings {
            inputs.push([start.clone(), filling].concat());
        }
    }
    inputs.push(vec![255; SIZE]);
    inputs.push(longest.repeat(50));
    inputs
        .into_iter()
        .map(|mut input| {
            input.truncate(SIZE);
            plain(random, input)
        })
        .collect()
}

/// More than the longest file and the longest record, the longest file in front, whole or damaged.
pub fn long(random: &mut Random) -> Vec<Frame> {
    let mut frames = Vec::new();
    for _ in 0..40 {
        let mut file = Sketch::longest(random).bytes();
        let length = LONGEST_RECORD + 1 + random.below(300);
        file.extend_from_slice(&random.bytes(length));
        frames.push(plain(random, file.clone()));
        let at = random.below(LONGEST_OWN);
        file[at] ^= 1 << random.below(8);
        frames.push(plain(random, file));
    }
    for _ in 0..200 {
        frames.push(behind_longest(random));
    }
    frames
}

/// Valid files, the longest and none at all too, with any bytes behind them: as many as a power
/// of two, one less, one more, or any number, up to the longest input.
pub fn followed(random: &mut Random) -> Vec<Frame> {
    let powers = (0..=16).map(|power| 1 << power);
    let mut lengths: Vec<usize> = powers.flat_map(|n| [n - 1, n, n + 1]).collect();
    let most = MOST_INPUT as usize;
    lengths.extend((0..60).map(|_| 1 + random.below(most - 1)));
    lengths.extend((0..60).map(|_| 1 + random.below(4096)));
    lengths.retain(|&length| (1..=most).contains(&length));
    let starts = [
        Vec::new(),
        ROW.to_vec(),
        Sketch::lively(random).bytes(),
        Sketch::longest(random).bytes(),
    ];
    let mut frames = Vec::new();
    for length in lengths {
        let fitting = starts
            .iter()
            .filter(|start| start.len() + length <= most)
            .collect::<Vec<_>>();
        let start = random.pick(&fitting);
        frames.push(behind(random, start, length));
    }
    frames
}

/// A record of no kind there is and more behind it, or fewer than 4 bytes.
fn behind(random: &mut Random, file: &[u8], length: usize) -> Frame {
    let mut tail = random.bytes(length);
    let number = if length < 4 { 1 } else { 2 };
    if number == 2 {
        tail[2] = random.between(7, 255);
    }
    let input = [file, &tail].concat();
    let room = random.pick(&[0, 8, 16]);
    let name = "any bytes behind a valid file";
    marked(name, number, file.len(), input, room)
}

/// A faulty record right behind the longest file of its version: nothing more can be accepted there.
fn behind_longest(random: &mut Random) -> Frame {
    let sketch = Sketch::longest(random);
    let step = sketch.record(random, 6);
    let mut cut_step = step.bytes();
    cut_step.truncate(4 + random.below(4));
    let mut late = sketch.record(random, 5).bytes();
    late.extend_from_slice(&random.bytes(20));
    let strange = Record::new(7, &random.bytes(20));
    let beyond = Record::new(6, &[THREADS, 0, 0, 0]);
    let junk = Record::new(6, &[0, 0, 1, 0]);
    // The longest record there is, which reading may have to look at up to its end.
    let header = program(THREADS, &Layout::told(&[0; MOST_LOCATIONS]));
    let mut cut_header = header.bytes();
    cut_header.truncate(LONGEST_RECORD - 1);
    let choices = [
        (1, step.bytes()[..1 + random.below(3)].to_vec()),
        (1, cut_step),
        (2, strange.bytes()),
        (3, step.with_length(5)),
        (3, header.with_length(LONG_HEADER + 1)),
        (1, cut_header),
        (4, header.bytes()),
        (4, late),
        (5, beyond.bytes()),
        (8, junk.bytes()),
        (9, step.bytes().repeat(1 + random.below(4))),
    ];
    let (number, ref tail) = choices[random.below(choices.len())];
    let valid = sketch.bytes();
    let file = [&valid[..], tail].concat();
    let room = random.pick(&[0, 8, 16]);
    marked(
        "fault behind a longest file",
        number,
        valid.len(),
        file,
        room,
    )
}
