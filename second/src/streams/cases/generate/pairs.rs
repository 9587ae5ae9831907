//! Two faults in one record: the one whose check comes first names the function first.

use super::records::*;
use super::sketch::Sketch;
use super::spoil::*;
use crate::streams::random::Random;
use crate::streams::sizes::INSTRUCTIONS;

pub fn unknown_kind_odd_length(random: &mut Random) -> Faulty {
    let sketch = Sketch::lively(random);
    let kind = any_kind(random);
    let before = valid_part(random, &sketch, kind);
    let length = random.pick(&[0, 1, 3, 6, 7, 9, 10, 11]);
    let record = Record {
        kind: strange_kind(random),
        payload: random.bytes(length),
    };
    whole(random, &before, record.bytes(), 2)
}

pub fn unknown_kind_cut(random: &mut Random) -> Faulty {
    let sketch = Sketch::lively(random);
    let kind = any_kind(random);
    let before = valid_part(random, &sketch, kind);
    let mut record = sketch.record(random, kind);
    record.kind = strange_kind(random);
    cut(random, &before, record.bytes(), 2)
}

pub fn unknown_kind_first(random: &mut Random) -> Faulty {
    let sketch = Sketch::lively(random);
    let kind = any_kind(random);
    let mut record = sketch.record(random, kind);
    record.kind = strange_kind(random);
    whole(random, &[], record.bytes(), 2)
}

pub fn wrong_length_cut(random: &mut Random) -> Faulty {
    let sketch = Sketch::lively(random);
    let kind = any_kind(random);
    let before = valid_part(random, &sketch, kind);
    let record = sketch.record(random, kind);
    let (_, most) = LENGTHS[usize::from(kind) - 1];
    let any = random.below(60000) as u16;
    let length = most + random.pick(&[1, 2, 256, 65000, any]).max(1);
    let mut bytes = record.with_length(length);
    bytes.truncate(4 + random.below(record.payload.len() + 1));
    Faulty {
        before,
        record: bytes,
        after: Vec::new(),
        number: 3,
    }
}

pub fn wrong_length_out_of_place(random: &mut Random) -> Faulty {
    let kind = any_kind(random);
    let (_, before, record) = misplaced(random, kind);
    let length = odd_length(random, kind);
    whole(random, &before, record.with_length(length), 3)
}

pub fn cut_out_of_place(random: &mut Random) -> Faulty {
    let kind = any_kind(random);
    let (_, before, record) = misplaced(random, kind);
    cut(random, &before, record.bytes(), 1)
}

pub fn cut_out_of_range(random: &mut Random) -> Faulty {
    let sketch = Sketch::lively(random);
    let kind = any_kind(random);
    let before = valid_part(random, &sketch, kind);
    let mut record = sketch.record(random, kind);
    leave_range(random, &sketch, &mut record);
    cut(random, &before, record.bytes(), 1)
}

pub fn out_of_place_out_of_range(random: &mut Random) -> Faulty {
    let kind = any_kind(random);
    let (sketch, before, mut record) = misplaced(random, kind);
    leave_range(random, &sketch, &mut record);
    whole(random, &before, record.bytes(), 4)
}

pub fn out_of_place_unused_set(random: &mut Random) -> Faulty {
    let kind = random.pick(&[2, 3, 5, 6]);
    let (sketch, before, _) = misplaced(random, kind);
    let record = with_unused_set(random, &sketch, kind, None);
    whole(random, &before, record.bytes(), 4)
}

pub fn out_of_place_one_more(random: &mut Random) -> Faulty {
    let (sketch, mut before, thread) = full_thread(random);
    let kind = random.pick(&[4, 6]);
    before.push(sketch.record(random, kind));
    let record = random_instruction(random, thread, sketch.locations);
    whole(random, &before, record.bytes(), 4)
}

pub fn out_of_range_unused_set(random: &mut Random) -> Faulty {
    let sketch = Sketch::lively(random);
    let kind = random.pick(&[2, 3, 3, 5, 6, 6]);
    let before = valid_part(random, &sketch, kind);
    let record = loop {
        let mut record = with_unused_set(random, &sketch, kind, None);
        let second = record.payload[1];
        leave_range(random, &sketch, &mut record);
        // A good operation or code stays: it tells which fields are unused.
        if record.payload[1] == second {
            break record;
        }
    };
    whole(random, &before, record.bytes(), 5)
}

pub fn out_of_range_order_broken(random: &mut Random) -> Faulty {
    let kind = random.pick(&[3, 5]);
    let (sketch, before, thread) = disorder(random, kind);
    let mut record = sketch.record_at(random, kind, thread);
    leave_range_but_thread(random, &sketch, &mut record);
    whole(random, &before, record.bytes(), 5)
}

pub fn unused_set_order_broken(random: &mut Random) -> Faulty {
    let kind = random.pick(&[2, 3, 5]);
    let (sketch, before, at) = disorder(random, kind);
    let record = with_unused_set(random, &sketch, kind, Some(at));
    whole(random, &before, record.bytes(), 8)
}

pub fn order_broken_one_more(random: &mut Random) -> Faulty {
    let mut sketch = Sketch::lively(random);
    let full = random.between(0, sketch.threads - 2);
    let later = random.between(full + 1, sketch.threads - 1);
    sketch.sections[2].clear();
    sketch.fill_thread(random, full, INSTRUCTIONS);
    let count = random.between(1, INSTRUCTIONS);
    sketch.fill_thread(random, later, count);
    let before = sketch.before(3, sketch.sections[2].len());
    let record = random_instruction(random, full, sketch.locations);
    whole(random, &before, record.bytes(), 6)
}

pub fn out_of_range_one_more(random: &mut Random) -> Faulty {
    let (sketch, before, thread) = full_thread(random);
    let mut record = random_instruction(random, thread, sketch.locations);
    leave_range_but_thread(random, &sketch, &mut record);
    whole(random, &before, record.bytes(), 5)
}

pub fn unused_set_one_more(random: &mut Random) -> Faulty {
    let (sketch, before, thread) = full_thread(random);
    let record = with_unused_set(random, &sketch, 3, Some(thread));
    whole(random, &before, record.bytes(), 8)
}

pub fn out_of_range_step_more(random: &mut Random) -> Faulty {
    let (sketch, before) = full_steps(random);
    let mut record = sketch.record(random, 6);
    leave_range(random, &sketch, &mut record);
    whole(random, &before, record.bytes(), 5)
}

pub fn unused_set_step_more(random: &mut Random) -> Faulty {
    let (sketch, before) = full_steps(random);
    let record = with_unused_set(random, &sketch, 6, None);
    whole(random, &before, record.bytes(), 8)
}

/// The thread stays: it is what makes the other fault.
fn leave_range_but_thread(random: &mut Random, sketch: &Sketch, record: &mut Record) {
    let thread = record.payload[0];
    loop {
        let mut spoiled = record.clone();
        leave_range(random, sketch, &mut spoiled);
        if spoiled.payload[0] == thread {
            *record = spoiled;
            return;
        }
    }
}
