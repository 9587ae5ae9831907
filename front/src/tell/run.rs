//! A run in words: what each step does, what waits where, what memory holds. It looks at the states that the proved judge handed out
//! and works out none.

use crate::case::{Case, Instruction, Step};
use crate::story::compares;
use crate::story::state::{Entry, Held, State};
use crate::story::Story;
use crate::text::layout;

/// One sentence for each legal step of the run.
pub fn sentences(story: &Story) -> Vec<String> {
    let pairs = story.states.windows(2);
    let told = story.run.iter().zip(pairs);
    told.map(|(step, pair)| sentence(&story.case, step, &pair[0], &pair[1]))
        .collect()
}

fn sentence(case: &Case, step: &Step, before: &State, after: &State) -> String {
    match *step {
        Step::Issue { thread } => issue(case, thread as usize, before, after),
        Step::Move { thread, position } => {
            let entry = &before.buffers[thread as usize][position as usize];
            moved(case, thread, entry)
        }
        Step::Persist { line } => persisted(case, line as usize, &before.queues[line as usize][0]),
    }
}

/// The queue of a cache line. A line that a location has to itself goes without saying.
pub fn queue(case: &Case, line: usize) -> String {
    let name = case.first_on(line);
    match case.is_shared(line) {
        true => format!("the queue of {name}'s line"),
        false => format!("{name}'s queue"),
    }
}

/// The queue that a location's writes go through.
fn queue_of(case: &Case, at: u8) -> String {
    queue(case, case.line_of(at))
}

fn persisted(case: &Case, line: usize, oldest: &Held) -> String {
    match *oldest {
        Held::Write { at, word } => {
            let (write, name) = (held(case, oldest), &case.names[at as usize]);
            let of = match case.is_shared(line) {
                true => format!(", the oldest of {}'s line,", case.first_on(line)),
                false => String::new(),
            };
            format!("{write}{of} persists: memory holds {name} = {word} now")
        }
        Held::Marker { thread } => format!(
            "thread {thread}'s marker leaves {}: all that was before it there has persisted",
            queue(case, line)
        ),
    }
}

/// What the illegal step was to do, and that it cannot be done.
pub fn attempt(story: &Story, index: usize) -> String {
    let (case, before) = (&story.case, &story.states[index]);
    match story.run[index] {
        Step::Issue { thread } => {
            let thread = thread as usize;
            match case.threads[thread].get(before.issued[thread]) {
                Some(one) => format!(
                    "thread {thread} cannot issue '{}' here",
                    layout::instruction(case, one)
                ),
                None => format!("thread {thread} has no instruction left to issue"),
            }
        }
        Step::Move { thread, position } => {
            match before.buffers[thread as usize].get(position as usize) {
                Some(entry) => format!(
                    "{} cannot leave thread {thread}'s buffer here",
                    shown(case, entry)
                ),
                None => format!("thread {thread}'s buffer has no entry at position {position}"),
            }
        }
        Step::Persist { line } => {
            format!("{} has no entry to persist", queue(case, line as usize))
        }
    }
}

fn issue(case: &Case, thread: usize, before: &State, after: &State) -> String {
    let one = &case.threads[thread][before.issued[thread]];
    let does = match *one {
        Instruction::Load { at, register } => {
            let word = after.registers[thread][register as usize];
            match source(case, thread, at, before) {
                (held, place) if held == word => format!("r{register} takes {word}, from {place}"),
                _ => format!("r{register} takes {word}"),
            }
        }
        Instruction::Exchange { at, register, word } => {
            let old = after.registers[thread][register as usize];
            let write = held(case, &Held::Write { at, word });
            let queue = queue_of(case, at);
            format!("r{register} takes {old}, and {write} joins {queue}")
        }
        Instruction::Compare { word, .. } => compare(case, thread, word, before, after),
        Instruction::Mfence => "its buffer is empty, and no marker of it waits".to_string(),
        Instruction::StoreRegister { .. } => {
            let entry = after.buffers[thread].last();
            let entry = entry.map_or(String::new(), |entry| shown(case, entry));
            format!("{entry} waits in its buffer")
        }
        _ => "it waits in its buffer".to_string(),
    };
    format!(
        "thread {thread} issues '{}': {does}",
        layout::instruction(case, one)
    )
}

/// What a compare found, whether that is what its register held, and what became of its word.
fn compare(case: &Case, thread: usize, word: u32, before: &State, after: &State) -> String {
    let Some(one) = compares::compared(case, thread, before, after) else {
        return String::new();
    };
    let (at, found, expected) = (one.at, one.found, one.expected);
    let finds = match source(case, thread, at, before) {
        (held, place) if held == found => format!("it finds {found} in {place}"),
        _ => format!("it finds {found}"),
    };
    let register = one.register;
    if one.succeeds {
        let write = held(case, &Held::Write { at, word });
        let queue = queue_of(case, at);
        return format!("{finds}, as r{register} held, and succeeds: {write} joins {queue}");
    }
    format!("{finds}, not {expected} as r{register} held, and fails: r{register} takes {found}, and nothing is written")
}

/// Where a load finds its word, and the word there: the newest store in the own buffer, else the newest write in the queue, else memory.
fn source(case: &Case, thread: usize, at: u8, before: &State) -> (u32, String) {
    let own = before.buffers[thread]
        .iter()
        .rev()
        .find_map(|entry| match entry {
            Entry::Store { at: other, word } if *other == at => Some(*word),
            _ => None,
        });
    let written = before.queues[case.line_of(at)]
        .iter()
        .rev()
        .find_map(|held| match held {
            Held::Write { at: other, word } if *other == at => Some(*word),
            _ => None,
        });
    match (own, written) {
        (Some(word), _) => (word, "its own buffer".to_string()),
        (None, Some(word)) => (word, queue_of(case, at)),
        (None, None) => (before.words[at as usize], "memory".to_string()),
    }
}

fn moved(case: &Case, thread: u8, entry: &Entry) -> String {
    let leaves = format!("{} leaves thread {thread}'s buffer", shown(case, entry));
    match *entry {
        Entry::Store { at, .. } => format!("{leaves} and joins {}", queue_of(case, at)),
        Entry::Flush { at } => format!("{leaves}: {} is empty", queue_of(case, at)),
        Entry::FlushOpt { at } => {
            format!("{leaves}, and its marker joins {}", queue_of(case, at))
        }
        Entry::Sfence => format!("{leaves}: no queue holds a marker of thread {thread}"),
    }
}

/// An entry of a buffer.
pub fn shown(case: &Case, entry: &Entry) -> String {
    let name = |at: u8| &case.names[at as usize];
    match *entry {
        Entry::Store { at, word } => format!("{}={word}", name(at)),
        Entry::Flush { at } => format!("clflush {}", name(at)),
        Entry::FlushOpt { at } => format!("clflushopt {}", name(at)),
        Entry::Sfence => "sfence".to_string(),
    }
}

/// An entry of a queue; a write has its location's name where others may stand there.
fn held(case: &Case, one: &Held) -> String {
    match *one {
        Held::Write { at, word } if case.is_shared(case.line_of(at)) => {
            shown(case, &Entry::Store { at, word })
        }
        Held::Write { word, .. } => word.to_string(),
        Held::Marker { thread } => format!("marker of thread {thread}"),
    }
}

/// What waits where, a part for each buffer and queue that holds something.
pub fn waiting(case: &Case, state: &State) -> String {
    let mut parts = Vec::new();
    for (thread, buffer) in state
        .buffers
        .iter()
        .enumerate()
        .filter(|(_, buffer)| !buffer.is_empty())
    {
        let entries: Vec<String> = buffer.iter().map(|entry| shown(case, entry)).collect();
        parts.push(format!("thread {thread}'s buffer: {}", entries.join(", ")));
    }
    for (line, entries) in state
        .queues
        .iter()
        .enumerate()
        .filter(|(_, entries)| !entries.is_empty())
    {
        let entries: Vec<String> = entries.iter().map(|one| held(case, one)).collect();
        parts.push(format!("{}: {}", queue(case, line), entries.join(", ")));
    }
    match parts.is_empty() {
        true => "nothing".to_string(),
        false => parts.join("; "),
    }
}

/// All persistent words.
pub fn memory(case: &Case, state: &State) -> String {
    let words = case.names.iter().zip(&state.words);
    let words: Vec<String> = words
        .map(|(name, word)| format!("{name} = {word}"))
        .collect();
    words.join(", ")
}
