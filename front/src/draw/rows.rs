//! The rows: the columns' heads, the label of each step, and the chips that the steps set down.

use super::ink::{chip_width, Ink, CHIP_OVER};
use super::lines::look;
use super::plan::{Plan, AGAIN, HEADS, MARGIN, ROW, START};
use super::words;
use crate::case::Step;
use crate::story::lives::Kind;
use crate::text::layout;

/// The columns' ground, from the heads down to the closing part.
pub fn ground(ink: &mut Ink, plan: &Plan) {
    let (top, height) = (plan.top, plan.bottom() - plan.top);
    for column in plan.buffers.iter().chain(&plan.queues) {
        ink.rect("panel", column.left, top, column.width(), height, 6);
    }
}

pub fn hairs(ink: &mut Ink, plan: &Plan) {
    let right = plan.width - MARGIN;
    for row in 0..plan.legal {
        ink.path("hair", &format!("M{MARGIN} {}H{right}", plan.row_top(row)));
    }
}

pub fn heads(ink: &mut Ink, plan: &Plan) {
    let top = plan.top;
    names(ink, plan, top + 18);
    for column in &plan.buffers {
        ink.text(
            (column.left + column.right) / 2,
            top + 35,
            "sub mid",
            "store buffer",
        );
    }
    queue_heads(ink, plan, top + 35);
    ink.text(MARGIN, top + HEADS + START / 2 + 4, "step", "start");
}

fn queue_heads(ink: &mut Ink, plan: &Plan, y: i32) {
    for (column, locations) in plan.queues.iter().zip(plan.story.case.by_line()) {
        ink.text((column.left + column.band) / 2, y, "sub mid", "queue");
        for band in locations.iter().map(|at| plan.bands[*at]) {
            ink.text((band.left + band.right) / 2, y, "sub mid", "memory");
        }
    }
}

fn names(ink: &mut Ink, plan: &Plan, y: i32) {
    for (thread, column) in plan.buffers.iter().enumerate() {
        ink.text(
            (column.left + column.right) / 2,
            y,
            "strong mid",
            &format!("thread {thread}"),
        );
    }
    line_names(ink, plan, y);
    location_names(ink, plan, y);
}

fn location_names(ink: &mut Ink, plan: &Plan, y: i32) {
    for (at, band) in plan.bands.iter().enumerate() {
        let class = format!("strong mono mid name c{at}");
        let most = (band.width() - 4) / 8;
        let name = &plan.story.case.names[at];
        ink.text_within(band.middle(), y, &class, name, most);
    }
}

/// A line that locations share has a name of its own, above its queue.
fn line_names(ink: &mut Ink, plan: &Plan, y: i32) {
    let lines = plan.queues.iter().enumerate();
    for (line, column) in lines.filter(|(line, _)| plan.story.case.is_shared(*line)) {
        let middle = (column.left + column.band) / 2;
        ink.text(middle, y, "strong mid", &words::line(line));
    }
}

/// In a long run the names stand again every few rows.
pub fn heads_again(ink: &mut Ink, plan: &Plan) {
    for row in (0..plan.legal).filter(|&row| plan.again(row)) {
        let top = plan.row_top(row) - AGAIN;
        ink.rect("again", MARGIN, top, plan.width - 2 * MARGIN, AGAIN, 4);
        names(ink, plan, top + 18);
    }
}

pub fn labels(ink: &mut Ink, plan: &Plan) {
    for row in 0..plan.legal {
        let top = plan.row_top(row);
        let step = layout::short_step(&plan.story.run[row]);
        for left in &plan.sides {
            ink.text(*left, top + 18, "soft mono", &(row + 1).to_string());
            ink.text(left + plan.numbers, top + 18, "step mono", &step);
        }
        let (deed, full) = (plan.deed(row, words::SHORT), plan.deed(row, words::FULL));
        ink.told_text(MARGIN, top + ROW - 9, "deed", &deed, &full);
    }
}

pub fn chips(ink: &mut Ink, plan: &Plan) {
    for row in 0..plan.legal {
        match plan.story.run[row] {
            Step::Issue { thread } => issue_chip(ink, plan, row, thread as usize),
            Step::Move { .. } => queue_chip(ink, plan, row),
            Step::Persist { .. } => {}
        }
    }
}

fn issue_chip(ink: &mut Ink, plan: &Plan, row: usize, thread: usize) {
    let text = plan.issue_chip(row);
    let column = &plan.buffers[thread];
    let lane = column.lane_of(plan.story.states[row].buffers[thread].len());
    let look = match plan.touched(row) {
        Some(one) if !matches!(plan.lives[one].kind, Kind::Exchange { .. }) => {
            look(&plan.lives, one)
        }
        _ => "brief".to_string(),
    };
    ink.head(
        &look,
        lane + CHIP_OVER - chip_width(&text),
        plan.middle(row),
    );
    ink.chip(
        &look,
        lane,
        plan.middle(row),
        &text,
        &plan.deed(row, words::FULL),
    );
    queue_chip(ink, plan, row);
}

/// What a step set down in a queue, if it did.
fn queue_chip(ink: &mut Ink, plan: &Plan, row: usize) {
    let Some(one) = plan.touched(row) else { return };
    let life = &plan.lives[one];
    let (Some(line), true) = (life.queue, life.moved == Some(row)) else {
        return;
    };
    let lane = plan.queues[line].lane_of(plan.story.states[row].queues[line].len());
    let text = words::held(&plan.story.case, life, words::SHORT);
    ink.chip(
        &look(&plan.lives, one),
        lane,
        plan.middle(row),
        &text,
        &plan.deed(row, words::FULL),
    );
}
