//! The one text of a case, as docs/TEXT.md lays it out, and single instructions and steps in words.

use crate::case::{Case, Instruction, Step};
use crate::sizes;

/// The names of locations that come as records: letters that are easily told apart, so no i, l or o.
pub const NAMES: [&str; sizes::LOCATIONS] = [
    "x", "y", "z", "w", "a", "b", "c", "d", "e", "f", "g", "h", "j", "k", "m", "n",
];

pub fn text(case: &Case) -> String {
    let mut groups = vec![vec![format!("locations {}", case.names.join(" "))]];
    groups.push(lines(case));
    let first = |(at, word): (usize, &u32)| format!("first {} {word}", case.names[at]);
    groups.push(
        case.first
            .iter()
            .enumerate()
            .filter(|(_, word)| **word != 0)
            .map(first)
            .collect(),
    );
    for (thread, code) in case.threads.iter().enumerate() {
        let mut group = vec![format!("thread {thread}")];
        group.extend(
            code.iter()
                .map(|one| format!("  {}", instruction(case, one))),
        );
        groups.push(group);
    }
    groups.push(asked(case));
    if !case.run.is_empty() {
        let mut group = vec!["run".to_string()];
        group.extend(case.run.iter().map(|one| format!("  {}", step(case, one))));
        groups.push(group);
    }
    groups.retain(|group| !group.is_empty());
    let groups: Vec<String> = groups.iter().map(|group| group.join("\n") + "\n").collect();
    groups.join("\n")
}

/// Every cache line, also one with a single location, so that the records' version is kept.
fn lines(case: &Case) -> Vec<String> {
    let name = |at: &usize| format!(" {}", case.names[*at]);
    let line = |locations: &Vec<usize>| locations.iter().map(name).collect::<String>();
    match case.version {
        1 => Vec::new(),
        _ => case
            .by_line()
            .iter()
            .map(|locations| format!("line{}", line(locations)))
            .collect(),
    }
}

fn asked(case: &Case) -> Vec<String> {
    let want = |(at, word): (usize, &Option<u32>)| {
        word.map(|word| format!("want {} {word}", case.names[at]))
    };
    let passed = |(thread, count): (usize, &u8)| format!("passed {thread} {count}");
    let wants = case.wants.iter().enumerate().filter_map(want);
    wants
        .chain(
            case.passed
                .iter()
                .enumerate()
                .filter(|(_, count)| **count != 0)
                .map(passed),
        )
        .collect()
}

pub fn instruction(case: &Case, one: &Instruction) -> String {
    instruction_by(&|at| case.names[at as usize].clone(), one)
}

/// An instruction with its location's name as `name` has it.
pub fn instruction_by(name: &dyn Fn(u8) -> String, one: &Instruction) -> String {
    match *one {
        Instruction::Store { at, word } => format!("store {} {word}", name(at)),
        Instruction::StoreRegister { at, register } => format!("store {} r{register}", name(at)),
        Instruction::Load { at, register } => format!("load {} r{register}", name(at)),
        Instruction::Exchange { at, register, word } => {
            format!("xchg {} r{register} {word}", name(at))
        }
        Instruction::Compare { at, register, word } => {
            format!("cmpxchg {} r{register} {word}", name(at))
        }
        Instruction::Flush { at } => format!("clflush {}", name(at)),
        Instruction::FlushOpt { at } => format!("clflushopt {}", name(at)),
        Instruction::Sfence => "sfence".to_string(),
        Instruction::Mfence => "mfence".to_string(),
    }
}

pub fn step(case: &Case, one: &Step) -> String {
    match *one {
        Step::Issue { thread } => format!("issue {thread}"),
        Step::Move { thread, position } => format!("move {thread} {position}"),
        Step::Persist { line } => format!("persist {}", case.first_on(line as usize)),
    }
}

/// A step as the programs print it.
pub fn short_step(one: &Step) -> String {
    match one {
        Step::Issue { thread } => format!("I{thread}"),
        Step::Move { thread, position } => format!("M{thread}.{position}"),
        Step::Persist { line } => format!("P{line}"),
    }
}
