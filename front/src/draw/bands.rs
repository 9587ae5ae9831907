//! The persistent words: a band for each location, that takes the look of each write that persists.

use super::ink::Ink;
use super::lines::look;
use super::plan::{Plan, HEADS, START};

/// From where on a word stands in memory, and with which look.
struct Stretch {
    top: i32,
    word: u32,
    look: String,
}

pub fn draw(ink: &mut Ink, plan: &Plan) {
    for at in 0..plan.bands.len() {
        let stretches = stretches(plan, at);
        let ends = stretches
            .iter()
            .skip(1)
            .map(|next| next.top)
            .chain([plan.bottom()]);
        let bands = stretches
            .iter()
            .zip(ends)
            .map(|(one, end)| (one, end - one.top));
        bands.for_each(|(one, height)| stretch(ink, plan, at, one, height));
    }
}

fn stretches(plan: &Plan, at: usize) -> Vec<Stretch> {
    let top = plan.top + HEADS;
    let word = plan.story.states.first().map_or(0, |state| state.words[at]);
    let mut all = vec![Stretch {
        top,
        word,
        look: "still".to_string(),
    }];
    for row in 0..plan.legal {
        let persisted = plan
            .touched(row)
            .filter(|&one| plan.lives[one].persisted == Some(row));
        let Some(one) = persisted else { continue };
        match plan.lives[one].kind.write() {
            Some((here, word)) if here as usize == at => all.push(Stretch {
                top: plan.middle(row) - 12,
                word,
                look: look(&plan.lives, one),
            }),
            _ => {}
        }
    }
    all
}

fn stretch(ink: &mut Ink, plan: &Plan, at: usize, one: &Stretch, height: i32) {
    let band = &plan.bands[at];
    let (left, width) = (band.left, band.right - band.left);
    let middle = left + width / 2;
    ink.add(&format!(r#"<g class="band {}">"#, one.look));
    ink.rect("panel", left, one.top, width, height, 0);
    ink.rect("stretch", left, one.top, width, height, 0);
    if one.look == "still" {
        ink.text(
            middle,
            one.top + START / 2 + 4,
            "mono mid",
            &one.word.to_string(),
        );
    } else {
        ink.rect("box", left, one.top, width, 24, 0);
        ink.text(
            middle,
            one.top + 17,
            "mono mid strong",
            &one.word.to_string(),
        );
    }
    ink.add("</g>");
}
