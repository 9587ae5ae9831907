//! The one text of a case.

use super::names::PLAIN;
use super::statements::*;
use crate::judge::case::Case;

pub fn text(case: &Case) -> String {
    let mut groups = vec![
        flat(&[locations(case)]),
        flat(&lines(case)),
        flat(&firsts(case)),
    ];
    groups.extend(threads(case).iter().map(|lines| list(lines)));
    groups.push(flat(&wants(case)) + &flat(&passed(case)));
    let all = steps(case).iter();
    let behind: Vec<Line> = all.map(|step| in_words(case, step, 0)).collect();
    if !behind.is_empty() {
        groups.push(list(&[vec![run()], behind].concat()));
    }
    groups.retain(|group| !group.is_empty());
    groups.join("\n")
}

fn flat(lines: &[Line]) -> String {
    lines.iter().map(|line| written("", line)).collect()
}

/// All but the first line stand two blanks in.
fn list(lines: &[Line]) -> String {
    let (head, behind) = lines.split_at(1);
    let behind = behind.iter().map(|line| written("  ", line));
    flat(head) + &behind.collect::<String>()
}

fn written(indent: &str, line: &[Word]) -> String {
    let words: Vec<String> = line.iter().map(word).collect();
    format!("{indent}{}\n", words.join(" "))
}

fn word(one: &Word) -> String {
    match one {
        Word::Key(key) | Word::Either([key, _]) => key.to_string(),
        Word::Location(at) => PLAIN[usize::from(*at)].to_string(),
        Word::Register(register) => format!("r{register}"),
        Word::Number(number) => number.to_string(),
        Word::Digits(number) => number.to_string(),
        Word::Joined(parts) => parts.iter().map(word).collect(),
    }
}
