//! The end of the picture: the power cut with what it leaves and what is lost, or the step that is not possible.

use super::ink::{Ink, CHIP_OVER};
use super::lines::look;
use super::plan::{Plan, MARGIN};
use super::stop;
use super::words;
use crate::story::{lives, Answer};

pub const STRIP: i32 = 34;
const LOST_ROW: i32 = 24;
/// Lost entries of one column that are shown; the others are counted.
const LOST_MOST: usize = 8;

/// Draws it and says where it ends.
pub fn draw(ink: &mut Ink, plan: &Plan) -> i32 {
    match plan.story.answer {
        Answer::Reached => cut(ink, plan, "POWER CUT", ["memory", "then holds"]),
        Answer::Legal => cut(ink, plan, "A POWER CUT HERE", ["leaves in", "memory"]),
        Answer::Illegal { rule, .. } => stop::draw(ink, plan, rule),
        Answer::Unreachable { .. } | Answer::Undecided { .. } => plan.bottom(),
    }
}

fn cut(ink: &mut Ink, plan: &Plan, words: &str, label: [&str; 2]) -> i32 {
    let top = plan.bottom();
    ink.rect("cut", MARGIN, top, plan.width - 2 * MARGIN, STRIP, 4);
    ink.path(
        "bolt",
        &format!(
            "M{} {}l-8 14h5l-3 10l10 -14h-5l4 -10z",
            MARGIN + 16,
            top + 5
        ),
    );
    ink.text(MARGIN + 30, top + 22, "cutwords", words);
    crosses(ink, plan, top);
    let below = lost(ink, plan, top + STRIP);
    ink.text(MARGIN, below + 28, "strong", label[0]);
    ink.text(MARGIN, below + 44, "strong", label[1]);
    memory(ink, plan, below)
}

/// The entries that wait at the end, by column.
fn waiting(plan: &Plan) -> Vec<Vec<usize>> {
    let buffers =
        (0..plan.buffers.len()).map(|thread| lives::buffer(&plan.lives, thread, plan.legal));
    let queues = (0..plan.queues.len()).map(|line| lives::queue(&plan.lives, line, plan.legal));
    buffers.chain(queues).collect()
}

/// Each line that is cut ends in a cross.
fn crosses(ink: &mut Ink, plan: &Plan, y: i32) {
    let columns = plan.buffers.iter().chain(&plan.queues);
    let lengths = waiting(plan).into_iter().map(|entries| entries.len());
    for (column, length) in columns.zip(lengths) {
        (0..length).for_each(|position| ink.cross("cross", column.lane_of(position), y - 8));
    }
}

/// What waited is lost: struck through, below the cut.
fn lost(ink: &mut Ink, plan: &Plan, top: i32) -> i32 {
    let waiting = waiting(plan);
    let most = waiting.iter().map(Vec::len).max().unwrap_or(0);
    if most == 0 {
        return top;
    }
    ink.text(MARGIN, top + 20, "bad strong", "lost");
    ink.text(MARGIN, top + 34, "deed", "was waiting");
    for (index, entries) in waiting.iter().enumerate() {
        lost_column(ink, plan, index, entries, top + 23);
    }
    top + LOST_ROW * most.min(LOST_MOST + 1) as i32 + 20
}

fn lost_column(ink: &mut Ink, plan: &Plan, index: usize, entries: &[usize], top: i32) {
    let case = &plan.story.case;
    let queue = index.checked_sub(plan.buffers.len());
    let column = queue.map_or_else(|| &plan.buffers[index], |line| &plan.queues[line]);
    for (row, &one) in entries.iter().take(LOST_MOST).enumerate() {
        let life = &plan.lives[one];
        let full = format!("{} is lost", words::entry(case, life.kind, words::FULL));
        let text = match queue {
            Some(_) => words::held(case, life, words::SHORT),
            None => words::entry(case, life.kind, words::SHORT),
        };
        let look = format!("gone {}", look(&plan.lives, one));
        ink.chip(
            &look,
            column.lane,
            top + LOST_ROW * row as i32,
            &text,
            &full,
        );
    }
    if entries.len() > LOST_MOST {
        let more = format!("and {} more", entries.len() - LOST_MOST);
        ink.text(
            column.lane + CHIP_OVER,
            top + LOST_ROW * LOST_MOST as i32 + 4,
            "bad tail",
            &more,
        );
    }
}

fn memory(ink: &mut Ink, plan: &Plan, top: i32) -> i32 {
    let top = top + 4;
    for at in 0..plan.bands.len() {
        word(ink, plan, at, top);
    }
    let wanted = plan.story.case.wants.iter().any(Option::is_some);
    top + if wanted { 78 } else { 58 }
}

/// A persistent word at the end, as large as its room allows, with the look of the write that brought it.
fn word(ink: &mut Ink, plan: &Plan, at: usize, top: i32) {
    let (room, middle) = (&plan.bands[at], plan.bands[at].middle());
    let last = lives::newest(&plan.lives, at, plan.legal);
    let look = last.map_or("still".to_string(), |one| look(&plan.lives, one));
    let held = plan.story.states[plan.legal].words[at];
    let text = held.to_string();
    let size = ((room.width() - 8) * 10 / (text.len() as i32 * 6)).min(30);
    ink.add(&format!(r#"<g class="end {look}">"#));
    ink.rect("box", room.room, top, room.width(), 56, 6);
    let name = &plan.story.case.names[at];
    ink.text_within(
        middle,
        top + 15,
        "mono mid small",
        name,
        (room.width() - 4) / 7,
    );
    ink.add(&format!(
        r#"<text x="{middle}" y="{}" class="mono mid strong" style="font-size:{size}px">{text}</text>"#,
        top + 44
    ));
    ink.add("</g>");
    if let Some(want) = plan.story.case.wants[at] {
        let is_met = want == held;
        let class = if is_met { "met mid" } else { "soft mid" };
        ink.text(middle, top + 71, class, &words::wanted(want, is_met));
    }
}
