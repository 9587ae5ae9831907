//! Frames with one fault or two in one record, marked with the answer they must get.

use super::headers;
use super::pairs::*;
use super::records::{join, random_instruction};
use super::sketch::Sketch;
use super::spoil::*;
use super::unset::*;
use crate::streams::cases::frame::Frame;
use crate::streams::cases::marks::marked;
use crate::streams::random::Random;

type Maker = fn(&mut Random) -> Faulty;

/// Family, its maker, how many frames of it.
const MAKERS: [(&str, Maker, usize); 38] = [
    ("fault 1 (head)", cut_head, 200),
    ("fault 1 (payload)", cut_payload, 400),
    ("fault 2", unknown_kind, 520),
    ("fault 3", wrong_length, 520),
    ("fault 4", out_of_place, 520),
    ("fault 5", out_of_range, 520),
    ("fault 6", order_broken, 520),
    ("fault 7", one_instruction_more, 520),
    ("fault 8", unused_set, 520),
    ("fault 9", one_step_more, 520),
    ("fault 10", unset_register, 300),
    ("faults 2+3", unknown_kind_odd_length, 120),
    ("faults 2+1 (payload)", unknown_kind_cut, 120),
    ("faults 2+4", unknown_kind_first, 120),
    ("faults 3+1 (payload)", wrong_length_cut, 120),
    ("faults 3+4", wrong_length_out_of_place, 120),
    ("faults 1 (payload)+4", cut_out_of_place, 120),
    ("faults 1 (payload)+5", cut_out_of_range, 120),
    ("faults 4+5", out_of_place_out_of_range, 120),
    ("faults 4+8", out_of_place_unused_set, 120),
    ("faults 4+7", out_of_place_one_more, 120),
    ("faults 5+8", out_of_range_unused_set, 300),
    ("faults 5+6", out_of_range_order_broken, 120),
    ("faults 8+6", unused_set_order_broken, 120),
    ("faults 6+7", order_broken_one_more, 120),
    ("faults 5+7", out_of_range_one_more, 120),
    ("faults 8+7", unused_set_one_more, 120),
    ("faults 5+9", out_of_range_step_more, 120),
    ("faults 8+9", unused_set_step_more, 120),
    ("faults 1 (head)+10", cut_head_unset, 60),
    ("faults 2+10", unknown_kind_unset, 60),
    ("faults 3+10", wrong_length_unset, 60),
    ("faults 1 (payload)+10", cut_unset, 60),
    ("faults 4+10", out_of_place_unset, 60),
    ("faults 5+10", out_of_range_unset, 60),
    ("faults 8+10", unused_set_unset, 60),
    ("faults 6+10", order_broken_unset, 60),
    ("faults 7+10", one_more_unset, 60),
];

/// How many of them have one fault; and how many of these are cut.
const SINGLE: usize = 11;
const CUT: usize = 2;

pub fn all(random: &mut Random) -> Vec<Frame> {
    let mut frames = Vec::new();
    for (name, maker, times) in MAKERS {
        for _ in 0..times {
            frames.push(frame(random, name, maker));
        }
    }
    for (name, maker, _) in &MAKERS[..SINGLE] {
        frames.extend((0..40).map(|_| preceded(random, name, *maker)));
    }
    // Nothing can stand behind what is cut.
    for (name, maker, _) in &MAKERS[CUT..SINGLE] {
        let name = format!("{name}, 10 behind it");
        frames.extend((0..40).map(|_| beside(random, &name, *maker, set_behind)));
    }
    frames
}

fn preceded(random: &mut Random, name: &str, maker: Maker) -> Frame {
    beside(random, &format!("{name}, 10 before it"), maker, set_before)
}

/// A faulty file with an unset register in another record: the first of both decides.
fn beside(
    random: &mut Random,
    name: &str,
    maker: Maker,
    set: fn(&mut Random, &Faulty) -> Option<Faulty>,
) -> Frame {
    loop {
        let faulty = maker(random);
        if let Some(both) = set(random, &faulty) {
            return marked_faulty(random, name, both);
        }
    }
}

/// A batch of single faults and pairs, each sort as often as any other, and of headers.
pub fn some(random: &mut Random) -> Vec<Frame> {
    (0..50)
        .map(|turn| {
            if turn % 4 == 0 {
                return headers::one(random);
            }
            if turn % 8 == 1 {
                let (name, maker, _) = random.pick(&MAKERS[..SINGLE]);
                return preceded(random, name, maker);
            }
            let (name, maker, _) = random.pick(&MAKERS);
            frame(random, name, maker)
        })
        .collect()
}

fn frame(random: &mut Random, name: &str, maker: Maker) -> Frame {
    let faulty = maker(random);
    marked_faulty(random, name, faulty)
}

pub fn marked_faulty(random: &mut Random, name: &str, faulty: Faulty) -> Frame {
    let before = join(&faulty.before);
    let offset = before.len();
    let input = [before, faulty.record, faulty.after].concat();
    let room = random.pick(&[0, 7, 8, 9, 12, 64]);
    marked(name, faulty.number, offset, input, room)
}

fn cut_head(random: &mut Random) -> Faulty {
    let sketch = Sketch::lively(random);
    let kind = any_kind(random);
    let before = valid_part(random, &sketch, kind);
    let mut record = sketch.record(random, kind).bytes();
    // Nothing at all is a fault only where the first record must start.
    let least = usize::from(!before.is_empty());
    record.truncate(least + random.below(4 - least));
    Faulty {
        before,
        record,
        after: Vec::new(),
        number: 1,
    }
}

fn cut_payload(random: &mut Random) -> Faulty {
    let sketch = Sketch::lively(random);
    let kind = any_kind(random);
    let before = valid_part(random, &sketch, kind);
    let record = sketch.record(random, kind).bytes();
    cut(random, &before, record, 1)
}

fn unknown_kind(random: &mut Random) -> Faulty {
    let sketch = Sketch::lively(random);
    let kind = any_kind(random);
    let before = valid_part(random, &sketch, kind);
    let mut record = sketch.record(random, kind);
    record.kind = strange_kind(random);
    whole(random, &before, record.bytes(), 2)
}

fn wrong_length(random: &mut Random) -> Faulty {
    let sketch = Sketch::lively(random);
    let kind = any_kind(random);
    let before = valid_part(random, &sketch, kind);
    let record = sketch.record(random, kind);
    let length = odd_length(random, kind);
    let mut bytes = record.with_length(length);
    if length < 300 {
        bytes.resize(4 + usize::from(length), 0);
    }
    whole(random, &before, bytes, 3)
}

fn out_of_place(random: &mut Random) -> Faulty {
    let kind = any_kind(random);
    let (_, before, record) = misplaced(random, kind);
    whole(random, &before, record.bytes(), 4)
}

fn out_of_range(random: &mut Random) -> Faulty {
    let sketch = Sketch::lively(random);
    let kind = any_kind(random);
    let before = valid_part(random, &sketch, kind);
    let mut record = sketch.record(random, kind);
    leave_range(random, &sketch, &mut record);
    whole(random, &before, record.bytes(), 5)
}

fn unused_set(random: &mut Random) -> Faulty {
    let sketch = Sketch::lively(random);
    let kind = random.pick(&[2, 3, 5, 6]);
    let before = valid_part(random, &sketch, kind);
    let record = with_unused_set(random, &sketch, kind, None);
    whole(random, &before, record.bytes(), 8)
}

fn order_broken(random: &mut Random) -> Faulty {
    let kind = random.pick(&[2, 3, 4, 5]);
    let (sketch, before, at) = disorder(random, kind);
    let record = sketch.record_at(random, kind, at);
    whole(random, &before, record.bytes(), 6)
}

fn one_instruction_more(random: &mut Random) -> Faulty {
    let (sketch, before, thread) = full_thread(random);
    let record = random_instruction(random, thread, sketch.locations);
    whole(random, &before, record.bytes(), 7)
}

fn one_step_more(random: &mut Random) -> Faulty {
    let (sketch, before) = full_steps(random);
    let record = sketch.record(random, 6);
    whole(random, &before, record.bytes(), 9)
}
