//! One JSON object for a case, on one line; docs/FRONT.md has the fields.

use super::blocker;
use super::cut;
use super::json::{list, map, text};
use super::report;
use super::rules;
use super::run;
use crate::case::Case;
use crate::messages::Mistake;
use crate::story::blocker::{find, Place};
use crate::story::compares::{self, Compared};
use crate::story::search::{limit, Search};
use crate::story::{lives, Answer, Refusal, Story};
use crate::text::layout;

struct Object(Vec<(&'static str, String)>);

impl Object {
    fn new(file: &str, command: &str, status: u8, answer: &str) -> Object {
        Object(vec![
            ("file", text(file)),
            ("command", text(command)),
            ("status", status.to_string()),
            ("answer", text(answer)),
        ])
    }

    fn put(&mut self, name: &'static str, value: String) {
        self.0.push((name, value));
    }

    fn line(&self) -> String {
        map(&self.0) + "\n"
    }
}

pub fn told(story: &Story, command: &str, status: u8) -> String {
    let mut object = Object::new(&story.file, command, status, story.answer.word());
    object.put("number", story.answer.number().to_string());
    if let Answer::Illegal { index, rule, .. } = story.answer {
        object.put("index", index.to_string());
        object.put("rule", text(rules::rule(&story.case, rule)));
        put_blocker(&mut object, story);
    }
    if let Some(search) = story.search {
        put_search(&mut object, search, story.answer);
        put_asked(&mut object, &story.case);
    }
    put_lines(&mut object, &story.case);
    object.put("full_length", story.full_length.to_string());
    if !matches!(
        story.answer,
        Answer::Unreachable { .. } | Answer::Undecided { .. }
    ) {
        put_run(&mut object, story);
    }
    object.line()
}

/// What is in the way, where something is: its place, the entry there, and the steps that take it away.
fn put_blocker(object: &mut Object, story: &Story) {
    let lives = lives::lives(story);
    let Some(found) = find(story, &lives) else {
        return;
    };
    let life = &lives[found.life];
    let own = (life.thread as usize, life.instruction);
    let mut fields = vec![("place", text(&found.place.to_string()))];
    match found.place {
        Place::Buffer { .. } => fields.push(("in", text("buffer"))),
        Place::Queue { line, .. } => {
            fields.extend([("in", text("queue")), ("line", line.to_string())]);
        }
    }
    let away = story.away.iter();
    fields.extend([
        ("position", found.place.position().to_string()),
        ("thread", life.thread.to_string()),
        ("instruction", text(&blocker::written(&story.case, own))),
        ("issued", life.issued.to_string()),
        ("told", text(&blocker::waits(story, life, &found))),
        (
            "away",
            list(away.map(|step| text(&layout::short_step(step)))),
        ),
    ]);
    object.put("blocker", map(&fields));
}

/// Which search answered, how far it might go, and how many distinct states it has gone through.
fn put_search(object: &mut Object, search: Search, answer: Answer) {
    object.put("engine", text(search.engine()));
    match search {
        Search::Walk { runs } => object.put("budget", runs.to_string()),
        Search::Remember { states, bytes } => {
            object.put("most_states", states.to_string());
            object.put("most_memory", bytes.to_string());
        }
    }
    if let Answer::Unreachable { states: Some(gone) } | Answer::Undecided { states: Some(gone) } =
        answer
    {
        object.put("states", gone.to_string());
    }
    if let (Search::Remember { states, bytes }, Answer::Undecided { states: Some(gone) }) =
        (search, answer)
    {
        object.put("stopped_by", text(limit(gone, states, bytes).word()));
    }
}

fn put_asked(object: &mut Object, case: &Case) {
    let wants = case.names.iter().zip(&case.wants);
    let wants = wants.filter_map(|(name, want)| Some((name, (*want)?.to_string())));
    object.put("wants", map(&wants.collect::<Vec<_>>()));
    let passed = case
        .passed
        .iter()
        .enumerate()
        .filter(|(_, count)| **count != 0);
    let passed = passed.map(|(thread, count)| (thread.to_string(), count.to_string()));
    object.put("passed", map(&passed.collect::<Vec<_>>()));
}

/// The locations on each cache line, where the case gives them: by its number.
fn put_lines(object: &mut Object, case: &Case) {
    if case.version != 1 {
        let lines = case.by_line();
        object.put("lines", list(lines.iter().map(|line| names(case, line))));
    }
}

fn names(case: &Case, locations: &[usize]) -> String {
    list(locations.iter().map(|at| text(&case.names[*at])))
}

fn put_run(object: &mut Object, story: &Story) {
    let case = &story.case;
    let steps = story.run.iter().map(|step| text(&layout::short_step(step)));
    object.put("steps", list(steps));
    object.put(
        "told",
        list(run::sentences(story).iter().map(|one| text(one))),
    );
    put_compares(object, story);
    let Some(end) = story.states.last() else {
        return;
    };
    let words = case.names.iter().zip(&end.words);
    let words = words.map(|(name, word)| (name, word.to_string()));
    object.put("memory", map(&words.collect::<Vec<_>>()));
    object.put("waiting", text(&run::waiting(case, end)));
    if story.answer != Answer::Reached {
        return;
    }
    if let Some(torn) = cut::torn(story) {
        let (new, old) = (names(case, &torn.new), names(case, &torn.old));
        object.put("torn", map(&[("new", new), ("old", old)]));
    }
}

/// What each compare of the run found, where there is one.
fn put_compares(object: &mut Object, story: &Story) {
    let compare = |(index, one): &(usize, Compared)| {
        let own = (one.thread, one.instruction);
        map(&[
            ("index", index.to_string()),
            ("thread", one.thread.to_string()),
            ("instruction", text(&blocker::written(&story.case, own))),
            ("expected", one.expected.to_string()),
            ("found", one.found.to_string()),
            ("succeeds", one.succeeds.to_string()),
        ])
    };
    let all = compares::all(story);
    if !all.is_empty() {
        object.put("compares", list(all.iter().map(compare)));
    }
}

pub fn refused(file: &str, command: &str, refused: &Refusal) -> String {
    let mut object = Object::new(file, command, 3, "refused");
    object.put("number", refused.number.to_string());
    object.put("offset", refused.offset.to_string());
    object.put("meaning", text(&rules::refusal(refused)));
    object.line()
}

pub fn bad_text(file: &str, command: &str, mistakes: &[Mistake]) -> String {
    let mistake = |one: &Mistake| {
        map(&[
            ("line", one.line.to_string()),
            ("column", one.column.to_string()),
            ("message", text(&one.what.to_string())),
        ])
    };
    let mut object = Object::new(file, command, 3, "bad text");
    object.put(
        "mistakes",
        list(mistakes.iter().take(report::MOST_MISTAKES).map(mistake)),
    );
    object.put("mistakes_in_all", mistakes.len().to_string());
    object.line()
}

pub fn unread(file: &str, command: &str, message: &str) -> String {
    let mut object = Object::new(file, command, 3, "not read");
    object.put("message", text(message));
    object.line()
}
