//! The way of each entry as a line: down while it waits, to the right as a step moves it or lets it persist.

use super::ink::{chip_width, Ink, CHIP_OVER, CROSS};
use super::plan::{Column, Plan, ROW};
use super::words;
use crate::story::compares::Compared;
use crate::story::lives::{self, Kind, Life};
use std::ops::Range;

/// The classes that give an entry one look on its whole way: its location's colour, and every second write a double line.
pub fn look(lives: &[Life], one: usize) -> String {
    let kind = lives[one].kind;
    match kind {
        Kind::Sfence => "fence".to_string(),
        Kind::Flush { at } | Kind::FlushOpt { at } => format!("c{at} mark"),
        Kind::Store { at, .. } | Kind::Exchange { at, .. } => {
            let same = |life: &&Life| life.is_write_to(at as usize);
            let before = lives[..one].iter().filter(same).count();
            format!("c{at} w{}", before % 2)
        }
    }
}

pub fn draw(ink: &mut Ink, plan: &Plan) {
    let waits =
        (0..plan.lives.len()).flat_map(|one| [buffer_wait(plan, one), queue_wait(plan, one)]);
    for (one, way) in waits.enumerate().filter(|(_, way)| !way.is_empty()) {
        line(ink, &look(&plan.lives, one / 2), &way);
    }
}

/// A line; the thin one upon it makes a double line of it where the look asks for that.
fn line(ink: &mut Ink, look: &str, way: &str) {
    ink.path(&format!("line {look}"), way);
    if look.ends_with("w1") {
        ink.path("thin", way);
    }
}

fn buffer_wait(plan: &Plan, one: usize) -> String {
    let life = &plan.lives[one];
    if matches!(life.kind, Kind::Exchange { .. }) {
        return String::new();
    }
    let thread = life.thread as usize;
    let entries = |steps| lives::buffer(&plan.lives, thread, steps);
    let column = &plan.buffers[thread];
    wait(plan, column, life.issued, life.moved, |steps| {
        place(&entries(steps), one)
    })
}

fn queue_wait(plan: &Plan, one: usize) -> String {
    let life = &plan.lives[one];
    let (Some(line), Some(from)) = (life.queue, life.moved) else {
        return String::new();
    };
    let entries = |steps| lives::queue(&plan.lives, line, steps);
    wait(plan, &plan.queues[line], from, life.persisted, |steps| {
        place(&entries(steps), one)
    })
}

fn place(entries: &[usize], one: usize) -> usize {
    entries.iter().position(|&entry| entry == one).unwrap_or(0)
}

/// Down from the row where it joins to the row where it leaves, or to the end; a lane to the right where one before it has left.
fn wait(
    plan: &Plan,
    column: &Column,
    from: usize,
    until: Option<usize>,
    place: impl Fn(usize) -> usize,
) -> String {
    let lane = |steps: usize| column.lane_of(place(steps));
    let mut way = format!("M{} {}", lane(from + 1), plan.middle(from));
    for row in from + 1..until.unwrap_or(plan.legal) {
        let (before, behind) = (lane(row), lane(row + 1));
        if before != behind {
            // below the middle, where the one that leaves has turned away
            let (top, end) = (plan.middle(row) - 3, plan.row_top(row) + ROW - 1);
            let bend = (top + end) / 2;
            way += &format!("V{top}C{before} {bend} {behind} {bend} {behind} {end}");
        }
    }
    let end = until.map_or(plan.bottom(), |row| plan.middle(row) - 6);
    way + &format!("V{end}")
}

/// The arrows of the steps, which cross what waits: they go over its lines, and behind the bands of memory.
pub fn arrows(ink: &mut Ink, plan: &Plan) {
    for (one, life) in plan.lives.iter().enumerate() {
        let look = look(&plan.lives, one);
        match (life.kind, life.moved) {
            (Kind::Flush { .. } | Kind::Sfence, Some(row)) => {
                ring(
                    ink,
                    &look,
                    plan.buffers[life.thread as usize].lane,
                    plan.middle(row),
                );
            }
            (_, Some(row)) => move_arrow(ink, plan, one, row, &look),
            _ => {}
        }
        if let (Some(row), Some(line)) = (life.persisted, life.queue) {
            let (lane, y) = (plan.queues[line].lane, plan.middle(row));
            match life.kind.write() {
                Some((at, _)) => arrow(ink, &look, lane, y, plan.bands[at as usize].left),
                None => ring(ink, &look, lane, y),
            }
        }
    }
}

/// A compare that fails goes as far as an exchange and leaves nothing: its line is dotted, and a cross stands where its write would.
pub fn misses(ink: &mut Ink, plan: &Plan) {
    for (row, one) in &plan.failed {
        let line = plan.story.case.line_of(one.at);
        let waits = plan.story.states[*row].queues[line].len();
        let (lane, y) = (plan.queues[line].lane_of(waits), plan.middle(*row));
        let way = format!(
            "M{} {y}H{}",
            plan.buffers[one.thread].lane + CHIP_OVER,
            lane - CROSS / 2 - 2
        );
        ink.path("halo", &way);
        ink.path(&format!("line past {}", missed(one)), &way);
        ink.cross("cross", lane, y);
    }
}

/// The look of a compare that fails: its location's colour.
fn missed(one: &Compared) -> String {
    format!("c{}", one.at)
}

/// From the buffer to the entry's chip in the queue; an exchange comes from what it shows in its thread's column.
fn move_arrow(ink: &mut Ink, plan: &Plan, one: usize, row: usize, look: &str) {
    let life = &plan.lives[one];
    let Some(line) = life.queue else {
        return;
    };
    let queue = &plan.queues[line];
    let lane = queue.lane_of(plan.story.states[row].queues[line].len());
    let end = lane + CHIP_OVER - chip_width(&words::held(&plan.story.case, life, words::SHORT));
    let thread = life.thread as usize;
    let buffer = &plan.buffers[thread];
    if matches!(life.kind, Kind::Exchange { .. }) {
        let from = buffer.lane + CHIP_OVER;
        return over(
            ink,
            look,
            &format!("M{from} {}H{}", plan.middle(row), end - 6),
            end,
            plan.middle(row),
        );
    }
    let position = place(&lives::buffer(&plan.lives, thread, row), one);
    arrow(ink, look, buffer.lane_of(position), plan.middle(row), end);
}

/// Where an arrow crosses the bands of other locations it is dotted: it goes past them.
pub fn past(ink: &mut Ink, plan: &Plan) {
    for (row, one) in &plan.failed {
        let queue = &plan.queues[plan.story.case.line_of(one.at)];
        cross(ink, plan, &missed(one), *row, 0..queue.left);
    }
    for (one, life) in plan.lives.iter().enumerate() {
        let (Some(line), Some(row)) = (life.queue, life.moved) else {
            continue;
        };
        let (look, queue) = (look(&plan.lives, one), &plan.queues[line]);
        cross(ink, plan, &look, row, 0..queue.left);
        if let (Some((at, _)), Some(row)) = (life.kind.write(), life.persisted) {
            let own = plan.bands[at as usize].left;
            cross(ink, plan, &look, row, queue.left..own);
        }
    }
}

/// Over each band of that stretch, in a row.
fn cross(ink: &mut Ink, plan: &Plan, look: &str, row: usize, stretch: Range<i32>) {
    let crossed = plan
        .bands
        .iter()
        .filter(|band| stretch.contains(&band.left));
    let y = plan.middle(row);
    crossed.for_each(|band| {
        ink.path(
            &format!("line past {look}"),
            &format!("M{} {y}H{}", band.left + 2, band.right),
        )
    });
}

fn arrow(ink: &mut Ink, look: &str, lane: i32, middle: i32, end: i32) {
    let way = format!(
        "M{lane} {}Q{lane} {middle} {} {middle}H{}",
        middle - 7,
        lane + 7,
        end - 6
    );
    over(ink, look, &way, end, middle);
}

/// A line over other lines: a broad one of the ground's colour sets it apart.
fn over(ink: &mut Ink, look: &str, way: &str, end: i32, middle: i32) {
    ink.path("halo", way);
    line(ink, look, way);
    ink.head(look, end, middle);
}

/// The end of what leaves no word behind.
fn ring(ink: &mut Ink, look: &str, x: i32, y: i32) {
    ink.add(&format!(
        r#"<circle class="ring {look}" cx="{x}" cy="{y}" r="5"/>"#
    ));
}
