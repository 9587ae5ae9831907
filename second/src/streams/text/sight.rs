//! A written case as its sorts are told: the case, what the judge and the walk say of it, and the free
//! text taken apart.

use super::cases::BUDGET;
use super::written::Written;
use crate::judge::ask::{search, End, REACHED, UNDECIDED, UNREACHABLE};
use crate::judge::case::Case;
use crate::judge::machine::judge::judge;
use crate::judge::reading::read;

pub struct Sight<'a> {
    pub case: Case,
    /// 103 or the rule.
    pub judged: u8,
    /// 100, 101 or 102.
    pub asked: u8,
    pub free: &'a str,
    pub lines: Vec<Text<'a>>,
    /// The words of the lines that have some.
    pub statements: Vec<Vec<&'a str>>,
}

/// A line of the text, its end cut off.
pub struct Text<'a> {
    /// What stands before the comment.
    pub said: &'a str,
    pub comment: Option<&'a str>,
}

impl Sight<'_> {
    /// None where the records cannot be read.
    pub fn of(written: &Written) -> Option<Sight<'_>> {
        let reading = read(&written.bytes);
        if reading.number != 0 {
            return None;
        }
        let lines: Vec<Text> = written.free.split('\n').map(apart).collect();
        let words = lines.iter().map(|line| words(line.said));
        Some(Sight {
            judged: judge(&reading.case).number,
            asked: match search(&reading.case, BUDGET).end {
                End::Reached(_) => REACHED,
                End::Unreachable => UNREACHABLE,
                End::Undecided => UNDECIDED,
            },
            case: reading.case,
            free: &written.free,
            statements: words.filter(|words| !words.is_empty()).collect(),
            lines,
        })
    }

    /// Where the statements stand that begin with that word.
    pub fn places(&self, key: &str) -> Vec<usize> {
        let all = self.statements.iter().enumerate();
        let such = all.filter(|(_, words)| words[0] == key);
        such.map(|(place, _)| place).collect()
    }

    /// Some statement that begins with the first word stands behind one that begins with the second.
    pub fn behind(&self, later: &str, earlier: &str) -> bool {
        let last = self.places(later).into_iter().max();
        let first = self.places(earlier).into_iter().min();
        matches!((first, last), (Some(first), Some(last)) if first < last)
    }

    pub fn names(&self) -> &[&str] {
        self.statements.first().map_or(&[], |words| &words[1..])
    }
}

fn apart(line: &str) -> Text<'_> {
    let line = line.strip_suffix('\r').unwrap_or(line);
    match line.split_once('#') {
        Some((said, comment)) => Text {
            said,
            comment: Some(comment),
        },
        None => Text {
            said: line,
            comment: None,
        },
    }
}

fn words(said: &str) -> Vec<&str> {
    let words = said.split(&[' ', '\t'][..]);
    words.filter(|word| !word.is_empty()).collect()
}
