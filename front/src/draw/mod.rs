//! The picture of a run: time goes down, a row a step; entries go from left to right, from the buffers through the queues to memory.

mod bands;
mod close;
pub mod ink;
mod lines;
mod look;
mod plan;
mod rows;
mod stop;
pub mod words;

use crate::story::{lives::Life, Answer, Story};
use crate::tell::blocker;
use crate::text::layout;
use ink::{escape, Ink};
pub use lines::look;
pub use look::variables;
use plan::{Plan, MARGIN};

/// The whole file, to stand by itself or inside a page.
pub fn svg(story: &Story) -> String {
    let plan = Plan::new(story);
    let mut ink = Ink::default();
    headline(&mut ink, &plan);
    rows::ground(&mut ink, &plan);
    rows::hairs(&mut ink, &plan);
    rows::heads(&mut ink, &plan);
    lines::draw(&mut ink, &plan);
    lines::arrows(&mut ink, &plan);
    lines::misses(&mut ink, &plan);
    bands::draw(&mut ink, &plan);
    lines::past(&mut ink, &plan);
    rows::heads_again(&mut ink, &plan);
    rows::labels(&mut ink, &plan);
    rows::chips(&mut ink, &plan);
    let height = close::draw(&mut ink, &plan) + MARGIN;
    framed(&plan, height, &ink.out)
}

/// The picture's natural width.
pub fn width(story: &Story) -> i32 {
    Plan::new(story).width
}

fn framed(plan: &Plan, height: i32, drawn: &str) -> String {
    let width = plan.width;
    let (title, desc) = (escape(&title(plan)), escape(&telling(plan)));
    let style = look::style(plan.bands.len());
    format!(
        r#"<svg xmlns="http://www.w3.org/2000/svg" class="run" role="img" aria-labelledby="run-title run-desc"
 width="{width}" height="{height}" viewBox="0 0 {width} {height}">
<title id="run-title">{title}</title>
<desc id="run-desc">{desc}</desc>
{style}
<rect class="ground" width="{width}" height="{height}"/>
{drawn}</svg>
"#
    )
}

fn headline(ink: &mut Ink, plan: &Plan) {
    let answer = &words::answer(plan.story);
    let badge = answer.len() as i32 * 10 + 16;
    ink.rect("badge", MARGIN, 10, badge, 24, 5);
    ink.text(MARGIN + badge / 2, 27, "badgewords mid", answer);
    let most = (plan.width - 3 * MARGIN - badge) * 10 / 73;
    ink.text_within(
        2 * MARGIN + badge,
        27,
        "mono",
        words::file_name(plan.story),
        most,
    );
    for (row, line) in plan.verdict.iter().enumerate() {
        ink.text(MARGIN, 57 + 21 * row as i32, "verdict", line);
    }
}

fn title(plan: &Plan) -> String {
    let story = plan.story;
    format!(
        "{}: {}. {}",
        words::file_name(story),
        words::answer(story),
        words::verdict(story)
    )
}

/// The picture in words.
fn telling(plan: &Plan) -> String {
    let told = (0..plan.legal).map(|index| {
        let step = layout::short_step(&plan.story.run[index]);
        format!(
            "Step {}, {step}: {}. ",
            index + 1,
            plan.deed(index, words::FULL)
        )
    });
    told.collect::<String>() + &ending(plan)
}

fn ending(plan: &Plan) -> String {
    let story = plan.story;
    match story.answer {
        Answer::Reached | Answer::Legal => {
            format!(
                "A power cut here leaves {}; lost: {}.",
                left(story),
                lost(story, &plan.lives)
            )
        }
        _ => {
            let mut told = vec![words::verdict(story)];
            told.extend(blocker::sentences(story));
            told.join(" ")
        }
    }
}

/// The persistent words at the end.
pub fn left(story: &Story) -> String {
    let held = story.states.last().map_or(&[][..], |state| &state.words);
    let pairs = story.case.names.iter().zip(held);
    pairs
        .map(|(name, word)| format!("{name} {word}"))
        .collect::<Vec<_>>()
        .join(", ")
}

/// What waits in buffers and queues at the end.
pub fn lost(story: &Story, lives: &[Life]) -> String {
    let legal = story.states.len().saturating_sub(1);
    let waits = |life: &&Life| life.in_buffer(legal) || life.in_queue(legal);
    let entry = |life: &Life| words::entry(&story.case, life.kind, words::FULL);
    let all: Vec<String> = lives.iter().filter(waits).map(entry).collect();
    if all.is_empty() {
        return "nothing".to_string();
    }
    all.join(", ")
}

#[cfg(test)]
mod tests {
    use super::*;
    use crate::story::blocker::tests::blocked_line;
    use crate::story::compares::tests::contended;
    use crate::story::lives::tests::{one_line, outage};

    #[test]
    fn the_outage_fits_a_phone_and_says_what_is_left_and_lost() {
        let drawn = svg(&outage());
        assert!(width(&outage()) <= 390);
        assert!(drawn.contains("A power cut here leaves limit 0, valid 1; lost: limit 500."));
        assert!(drawn.contains("POWER CUT") && drawn.contains("valid 1 persists"));
        assert_eq!(drawn.matches("✓ wanted").count(), 2);
        assert_eq!(drawn.matches("chip gone").count(), 1);
        assert_eq!(drawn, svg(&outage()));
    }

    #[test]
    fn a_shared_line_has_one_queue_with_names_and_a_band_for_each_location() {
        let drawn = svg(&one_line());
        assert_eq!(drawn.matches(r#"sub mid">queue<"#).count(), 1);
        assert_eq!(drawn.matches(r#"sub mid">memory<"#).count(), 2);
        assert_eq!(drawn.matches(">line 0<").count(), 1);
        // in the buffer and in the queue
        assert_eq!(drawn.matches(r#""mono mid">valid 1<"#).count(), 2);
        // only the second location's write goes past a band, that of the first
        assert_eq!(drawn.matches("line past c1 w0").count(), 1);
        assert_eq!(drawn.matches("line past").count(), 1);
    }

    #[test]
    fn a_compare_that_fails_has_a_dotted_line_and_a_cross_and_no_chip_in_the_queue() {
        let story = contended();
        let (drawn, plan) = (svg(&story), Plan::new(&story));
        assert!(drawn.contains(r#""deed">cmpxchg limit r2 1<"#));
        assert!(drawn.contains(r#""deed">cmpxchg limit r2 2 fails<"#));
        assert!(drawn.contains("Step 2, I1: cmpxchg limit r2 2 fails."));
        assert_eq!(drawn.matches(" fails<").count(), 2);
        // behind the first one's write, which waits there
        let (lane, y) = (plan.queues[0].lane_of(1), plan.middle(1));
        let cross = format!("M{} {}l10 10m0 -10l-10 10", lane - 5, y - 5);
        assert_eq!(drawn.matches(&cross).count(), 1);
        assert_eq!(drawn.matches(r#"class="line past c0""#).count(), 1);
        assert_eq!(drawn.matches(r#"class="chip c0 w0""#).count(), 1);
        assert!(lane - 5 > plan.queues[0].left);
    }

    #[test]
    fn every_element_is_closed_and_no_name_is_markup() {
        let mut story = outage();
        story.file = "a/<svg>&\"\u{1}.txt".to_string();
        let drawn = svg(&story);
        assert!(drawn.contains("&lt;svg&gt;&amp;&quot;.txt"));
        for tag in ["g", "text", "title", "desc", "style", "svg"] {
            let opened = drawn.matches(&format!("<{tag} ")).count()
                + drawn.matches(&format!("<{tag}>")).count();
            assert_eq!(opened, drawn.matches(&format!("</{tag}>")).count(), "{tag}");
        }
    }

    #[test]
    fn a_step_that_is_not_possible_ends_the_picture() {
        let mut story = outage();
        story.answer = Answer::Illegal {
            index: 5,
            rule: 29,
            blocker: None,
        };
        story.run.push(crate::case::Step::Persist { line: 1 });
        let drawn = svg(&story);
        assert!(drawn.contains("P1 is not possible here") && drawn.contains("breaks rule 29"));
        assert!(!drawn.contains("POWER CUT") && !drawn.contains("chip gone"));
        assert!(!drawn.contains("in the way"));
    }

    #[test]
    fn a_position_that_is_beyond_its_column_has_its_cross_at_the_edge() {
        let mut story = outage();
        story.answer = Answer::Illegal {
            index: 5,
            rule: 24,
            blocker: None,
        };
        story.run.push(crate::case::Step::Move {
            thread: 0,
            position: 15,
        });
        let (drawn, plan) = (svg(&story), Plan::new(&story));
        let (left, top) = (plan.buffers[0].left + 5, plan.bottom() - 13);
        assert!(drawn.contains(&format!("M{left} {top}l10 10m0 -10l-10 10")));
    }

    #[test]
    fn what_is_in_the_way_has_a_diamond_on_its_lane_and_a_frame_in_its_column() {
        let story = blocked_line();
        let (drawn, plan) = (svg(&story), Plan::new(&story));
        let (queue, bottom) = (&plan.queues[0], plan.bottom());
        let diamond = format!("M{} {}l5 5l-5 5l-5 -5z", queue.lane_of(1), bottom - 13);
        assert!(drawn.contains(&diamond));
        assert_eq!(drawn.matches("l5 5l-5 5l-5 -5z").count(), 1);
        let (_, frame) = drawn.split_once(">in the way<").unwrap();
        let (frame, _) = frame.split_once("</g>").unwrap();
        assert!(frame.contains(r#"chip c1 w0"><title>thread 0's 'store valid 1'"#));
        assert!(frame.contains(">Q0.1<") && frame.contains(">valid 1<"));
        let right = queue.lane + ink::CHIP_OVER + 4;
        let edges = frame.split_once(r#"<rect x=""#).unwrap().1;
        let number = |text: &str| text.split('"').next().unwrap().parse::<i32>().unwrap();
        let width = number(edges.split_once(r#"width=""#).unwrap().1);
        assert_eq!(number(edges) + width, right);
    }
}
