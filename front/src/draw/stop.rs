//! The end of a run that is not legal: the step that is not possible, and the entry that is in its way.

use super::close::STRIP;
use super::ink::{chip_width, wrap, Ink, CHIP_HEIGHT, CHIP_OVER, CROSS};
use super::lines::look;
use super::plan::{Column, Plan, MARGIN};
use super::words;
use crate::case::Step;
use crate::story::blocker::{find, Blocker, Place};
use crate::story::lives;
use crate::tell::{blocker, rules};
use crate::text::layout;

/// How far the marks stand above the strip.
const ABOVE: i32 = 8;
/// The height of the row that shows the entry in the way.
const ENTRY_ROW: i32 = 44;
/// The frame around the entry, beyond its chip on each side.
const FRAME: i32 = 4;

/// Draws it and says where it ends.
pub fn draw(ink: &mut Ink, plan: &Plan, rule: u32) -> i32 {
    let found = find(plan.story, &plan.lives);
    let top = plan.bottom();
    let mut below = strip(ink, plan, rule, found.as_ref());
    if let Some(step) = plan.story.run.get(plan.legal) {
        stopped(ink, plan, *step, top - ABOVE);
    }
    if let Some(found) = &found {
        marked(ink, plan, found, top - ABOVE);
        entry(ink, plan, found, below);
        below += ENTRY_ROW;
    }
    let mut why = vec![rules::sentence(&plan.story.case, rule)];
    why.extend(blocker::sentences(plan.story));
    let lines = why.iter().flat_map(|one| wrap(one, 12, plan.reading()));
    for line in lines {
        ink.text(MARGIN, below + 20, "soft", &line);
        below += 16;
    }
    below + 10
}

/// The step, its rule, and the place of what is in its way; where the strip ends.
fn strip(ink: &mut Ink, plan: &Plan, rule: u32, found: Option<&Blocker>) -> i32 {
    let step = plan.story.run.get(plan.legal);
    let name = step.map_or(String::new(), layout::short_step);
    let mut words = format!("{name} is not possible here: it breaks rule {rule}");
    if let Some(found) = found {
        words += &format!(", and {} is in the way", found.place);
    }
    let lines = wrap(&words, 15, plan.reading() - 40);
    let (top, height) = (plan.bottom(), STRIP - 16 + 18 * lines.len() as i32);
    ink.rect("stop", MARGIN, top, plan.width - 2 * MARGIN, height, 4);
    ink.cross("cross", MARGIN + 16, top + height / 2);
    for (row, line) in lines.iter().enumerate() {
        ink.text(MARGIN + 32, top + 22 + 18 * row as i32, "stopwords", line);
    }
    top + height
}

/// A cross where the step would have led on.
fn stopped(ink: &mut Ink, plan: &Plan, step: Step, y: i32) {
    let lane = match step {
        Step::Issue { thread } => {
            let waits = lives::buffer(&plan.lives, thread as usize, plan.legal).len();
            plan.buffers
                .get(thread as usize)
                .map(|column| column.lane_of(waits))
        }
        // where there is no entry at that position it may be beyond the column
        Step::Move { thread, position } => plan
            .buffers
            .get(thread as usize)
            .map(|column| column.lane_of(position as usize).max(column.left + CROSS)),
        Step::Persist { line } => plan.queues.get(line as usize).map(|column| column.lane),
    };
    if let Some(lane) = lane {
        ink.cross("cross", lane, y);
    }
}

fn column<'a>(plan: &'a Plan, place: Place) -> &'a Column {
    match place {
        Place::Buffer { thread, .. } => &plan.buffers[thread as usize],
        Place::Queue { line, .. } => &plan.queues[line as usize],
    }
}

/// A diamond at the end of the line of what is in the way.
fn marked(ink: &mut Ink, plan: &Plan, found: &Blocker, y: i32) {
    let lane = column(plan, found.place).lane_of(found.place.position());
    ink.path("cross", &format!("M{lane} {}l5 5l-5 5l-5 -5z", y - 5));
}

/// The entry itself in a frame, below the strip and in its column, with its place beside it.
fn entry(ink: &mut Ink, plan: &Plan, found: &Blocker, top: i32) {
    let (case, life) = (&plan.story.case, &plan.lives[found.life]);
    let text = match found.place {
        Place::Buffer { .. } => words::entry(case, life.kind, words::SHORT),
        Place::Queue { .. } => words::held(case, life, words::SHORT),
    };
    let (lane, middle) = (column(plan, found.place).lane, top + 23);
    let (left, width) = (lane + CHIP_OVER - chip_width(&text), chip_width(&text));
    ink.text(MARGIN, top + 20, "bad strong", "in the way");
    ink.text(MARGIN, top + 34, "deed", &found.place.to_string());
    ink.rect(
        "stop",
        left - FRAME,
        middle - CHIP_HEIGHT / 2 - FRAME,
        width + 2 * FRAME,
        CHIP_HEIGHT + 2 * FRAME,
        7,
    );
    let full = blocker::waits(plan.story, life, found);
    ink.chip(&look(&plan.lives, found.life), lane, middle, &text, &full);
}
