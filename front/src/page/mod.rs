//! The page that steps through a run: one file, with the picture, the states as data, and the script that shows them.

use crate::case::Instruction;
use crate::draw::{self, ink::escape, words};
use crate::story::lives::{self, Life};
use crate::story::{blocker::find, compares, state::State, Answer, Story};
use crate::tell::json::{list, map, text};
use crate::tell::{blocker, rules};
use crate::text::layout;

/// `told` has a sentence for each legal step.
pub fn html(story: &Story, told: &[String]) -> String {
    let picture = draw::svg(story);
    let value = |key: &str| match key {
        "title" => escape(&format!(
            "{}: {}",
            words::file_name(story),
            words::answer(story)
        )),
        "colours" => draw::variables(story.case.names.len()),
        "style" => include_str!("page.css").to_string(),
        "answer" => words::answer(story),
        "file" => escape(words::file_name(story)),
        "verdict" => escape(&words::verdict(story)),
        "size" => if draw::width(story) <= 560 {
            "small"
        } else {
            ""
        }
        .to_string(),
        "picture" => picture.clone(),
        "story" => data(story, told),
        "script" => include_str!("page.js").to_string(),
        _ => String::new(),
    };
    fill(include_str!("page.html"), value)
}

/// The template with a value in each place; what is put in is not looked at again.
fn fill(template: &str, value: impl Fn(&str) -> String) -> String {
    let mut pieces = template.split("{{");
    let mut out = pieces.next().unwrap_or("").to_string();
    for piece in pieces {
        let (key, rest) = piece.split_once("}}").unwrap_or((piece, ""));
        out += &value(key);
        out += rest;
    }
    out
}

fn data(story: &Story, told: &[String]) -> String {
    let case = &story.case;
    let lives = lives::lives(story);
    let program = |thread: &Vec<Instruction>| {
        let code = thread.iter().map(|one| layout::instruction(case, one));
        list(code.map(|words| text(&words)))
    };
    let wants = case
        .wants
        .iter()
        .map(|want| want.map_or("null".to_string(), |word| word.to_string()));
    let states = story
        .states
        .iter()
        .enumerate()
        .map(|(steps, state)| state_data(story, &lives, steps, state));
    map(&[
        ("names", list(case.names.iter().map(|name| text(name)))),
        ("lines", list(case.by_line().iter().map(numbers))),
        ("threads", list(case.threads.iter().map(program))),
        ("failed", failed(story)),
        ("wants", list(wants)),
        (
            "start",
            text("The start: nothing is issued yet, and memory holds the first words."),
        ),
        ("steps", list(steps(story, told))),
        ("states", list(states)),
        ("blocker", blocker_data(story, &lives)),
        ("end", end(story, &lives)),
    ])
}

/// By thread: its compares that fail, by their instructions, and what is said of each.
fn failed(story: &Story) -> String {
    let words = |thread: usize| {
        let own = compares::failed(story).filter(move |(_, one)| one.thread == thread);
        own.map(|(_, one)| {
            let said = format!("failed: found {}", one.found);
            (one.instruction.to_string(), text(&said))
        })
    };
    let threads = 0..story.case.threads.len();
    list(threads.map(|thread| map(&words(thread).collect::<Vec<_>>())))
}

fn numbers(locations: &Vec<usize>) -> String {
    list(locations.iter().map(usize::to_string))
}

/// The legal steps with their sentences, then the one that is not possible.
fn steps(story: &Story, told: &[String]) -> Vec<String> {
    let step = |(taken, say): (_, &String)| {
        map(&[
            ("code", text(&layout::short_step(taken))),
            ("say", text(&format!("{say}."))),
        ])
    };
    let legal = story.states.len().saturating_sub(1);
    let mut all: Vec<String> = story.run.iter().take(legal).zip(told).map(step).collect();
    if let Answer::Illegal { index, rule, .. } = story.answer {
        let name = story
            .run
            .get(index)
            .map_or(String::new(), |taken| layout::short_step(taken));
        let why = rules::sentence(&story.case, rule);
        let say = format!("{name} is not possible here. {why}");
        all.push(map(&[("code", text(&name)), ("say", text(&say))]));
    }
    all
}

fn state_data(story: &Story, lives: &[Life], steps: usize, state: &State) -> String {
    let case = &story.case;
    let buffer = |thread| {
        let shown = |one: usize| words::entry(case, lives[one].kind, words::FULL);
        entries(lives, &lives::buffer(lives, thread, steps), shown)
    };
    let queue = |line| {
        let shown = |one: usize| words::held(case, &lives[one], words::FULL);
        entries(lives, &lives::queue(lives, line, steps), shown)
    };
    let threads = 0..case.threads.len();
    let locations = 0..case.names.len();
    let lines = 0..case.by_line().len();
    map(&[
        ("issued", list(state.issued.iter().map(usize::to_string))),
        ("buffers", list(threads.clone().map(buffer))),
        ("queues", list(lines.map(queue))),
        (
            "words",
            list(locations.map(|at| word_data(lives, steps, at, state.words[at]))),
        ),
        (
            "registers",
            list(threads.map(|thread| registers(story, thread, state))),
        ),
    ])
}

fn entries(lives: &[Life], waiting: &[usize], shown: impl Fn(usize) -> String) -> String {
    list(waiting.iter().map(|&one| {
        let look = text(&draw::look(lives, one));
        map(&[
            ("life", one.to_string()),
            ("look", look),
            ("text", text(&shown(one))),
        ])
    }))
}

/// The entry in the way of the step that is not possible, and what is said of it; null where nothing is.
fn blocker_data(story: &Story, lives: &[Life]) -> String {
    find(story, lives).map_or("null".to_string(), |found| {
        map(&[
            ("life", found.life.to_string()),
            ("told", text(&blocker::sentences(story).join("\n"))),
        ])
    })
}

/// A persistent word, the look of the write that brought it, and the step that did: 0 for a first content.
fn word_data(lives: &[Life], steps: usize, at: usize, word: u32) -> String {
    let last = lives::newest(lives, at, steps);
    let look = last.map_or("still".to_string(), |one| draw::look(lives, one));
    let since = last
        .and_then(|one| lives[one].persisted)
        .map_or(0, |index| index + 1);
    map(&[
        ("text", text(&word.to_string())),
        ("look", text(&look)),
        ("since", since.to_string()),
    ])
}

/// The registers that the thread's program names.
fn registers(story: &Story, thread: usize, state: &State) -> String {
    let mut named: Vec<u8> = story.case.threads[thread]
        .iter()
        .filter_map(register)
        .collect();
    named.sort();
    named.dedup();
    let word = |&one: &u8| {
        text(&format!(
            "r{one} = {}",
            state.registers[thread][one as usize]
        ))
    };
    list(named.iter().map(word))
}

fn register(instruction: &Instruction) -> Option<u8> {
    match *instruction {
        Instruction::StoreRegister { register, .. }
        | Instruction::Load { register, .. }
        | Instruction::Exchange { register, .. }
        | Instruction::Compare { register, .. } => Some(register),
        _ => None,
    }
}

/// What a power cut at the end leaves; nothing where no power cut is told of.
fn end(story: &Story, lives: &[Life]) -> String {
    if !matches!(story.answer, Answer::Reached | Answer::Legal) {
        return "null".to_string();
    }
    let left = format!("A power cut here leaves {}.", draw::left(story));
    let lost = format!("Lost: {}.", draw::lost(story, lives));
    map(&[("left", text(&left)), ("lost", text(&lost))])
}

#[cfg(test)]
mod tests {
    use super::*;
    use crate::story::blocker::tests::blocked_line;
    use crate::story::compares::tests::contended;
    use crate::story::lives::tests::{one_line, outage};

    fn page(story: &Story) -> String {
        let told: Vec<String> = (1..=5).map(|step| format!("Sentence {step}")).collect();
        html(story, &told)
    }

    #[test]
    fn no_text_ends_the_element_that_it_stands_in() {
        assert_eq!(text("</script>\"\n"), r#""\u003c/script>\"\u000a""#);
        let mut story = outage();
        story.file = "</script><b>{{story}}".to_string();
        let page = page(&story);
        assert!(!page.contains("<b>") && page.contains("&lt;b&gt;{{story}}"));
        assert_eq!(page.matches("</script>").count(), 2);
    }

    #[test]
    fn the_outage_has_its_sentences_and_its_last_state() {
        let page = page(&outage());
        assert!(page.contains(r#"{"code":"P1","say":"Sentence 5."}"#));
        assert!(page.contains(r#"{"text":"1","look":"c1 w0","since":5}"#));
        assert!(page.contains("A power cut here leaves limit 0, valid 1."));
        assert!(page.contains("Lost: limit 500."));
    }

    #[test]
    fn the_locations_of_a_line_stand_together_and_their_writes_have_names() {
        assert!(page(&outage()).contains(r#""lines":[[0],[1]]"#));
        let page = page(&one_line());
        assert!(page.contains(r#""lines":[[0,1]]"#));
        let waits = r#""queues":[[{"life":1,"look":"c1 w0","text":"valid 1"}]]"#;
        assert_eq!(page.matches(waits).count(), 1);
    }

    #[test]
    fn a_compare_that_fails_is_named_by_its_thread_and_instruction() {
        let lost = page(&contended());
        assert!(lost.contains(r#""failed":[{},{"0":"failed: found 1"}]"#));
        assert!(lost.contains(r#""registers":[["r2 = 0"],["r2 = 1"]]"#));
        assert!(page(&outage()).contains(r#""failed":[{}]"#));
    }

    #[test]
    fn a_step_that_is_not_possible_comes_last() {
        let mut story = outage();
        story.answer = Answer::Illegal {
            index: 5,
            rule: 29,
            blocker: None,
        };
        story.run.push(crate::case::Step::Persist { line: 1 });
        let page = page(&story);
        assert!(page.contains("P1 is not possible here. Rule 29: "));
        assert!(!page.contains("A power cut here"));
        assert!(page.contains(r#""blocker":null"#));
    }

    #[test]
    fn what_is_in_the_way_is_named_by_its_life() {
        let page = page(&blocked_line());
        let told = r#""blocker":{"life":1,"told":"In the way (Q0.1): thread 0's 'store valid 1', issued in step 2, still waits in the queue of limit's line, second in it: it has to persist before the mfence may be issued.\u000aThis takes it away: 'persist limit' twice."}"#;
        assert!(page.contains(told));
    }
}
