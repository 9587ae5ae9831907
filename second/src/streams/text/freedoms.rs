//! The freedoms that a text takes, told by looking at it, and the least number of each in 2,000.

use super::names::{KEYS, LIKE_REGISTERS, LIKE_STEPS, MOST_CHARACTERS, PLAIN};
use super::sight::Sight;
use crate::streams::layouts::on_line;
use crate::streams::tally::{sort, Sort};

pub const FREEDOMS: [Sort<fn(&Sight) -> bool>; 61] = [
    sort("name: a word of the grammar", 100, |s| named(s, &KEYS)),
    sort("name: like a step", 100, |s| named(s, &LIKE_STEPS)),
    sort("name: nearly a register", 100, |s| {
        named(s, &LIKE_REGISTERS)
    }),
    sort("name: plain, of another location", 100, another_plain_name),
    sort("name: of 24 characters", 100, |s| {
        s.names().iter().any(|name| name.len() == MOST_CHARACTERS)
    }),
    sort("name: with _, - or .", 100, |s| {
        s.names()
            .iter()
            .any(|name| name.contains(&['_', '-', '.'][..]))
    }),
    sort("names: apart by capitals alone", 20, apart_by_capitals),
    sort("line behind first", 50, |s| s.behind("line", "first")),
    sort("line behind a thread", 50, |s| s.behind("line", "thread")),
    sort("line behind the run", 50, |s| s.behind("line", "run")),
    sort("line lines not by number", 50, |s| falls(s, "line")),
    sort("names not by number in a line", 50, line_falls),
    sort("one line alone is said", 50, |s| {
        s.case.lines > 1 && s.places("line").len() == 1
    }),
    sort("a line of its own is not said", 50, |s| {
        let said = s.places("line").len();
        said > 0 && said < usize::from(s.case.lines)
    }),
    sort("persist names the first of a line", 50, |s| {
        persists(s, |at, first| at == first)
    }),
    sort("persist names a later one of it", 30, |s| {
        persists(s, |at, first| at != first)
    }),
    sort("first behind a thread", 100, |s| {
        s.behind("first", "thread")
    }),
    sort("first behind the run", 50, |s| s.behind("first", "run")),
    sort("want before a thread", 100, |s| s.behind("thread", "want")),
    sort("want behind the run", 50, |s| s.behind("want", "run")),
    sort("passed before its thread", 50, passed_before_thread),
    sort("passed behind the run", 50, |s| s.behind("passed", "run")),
    sort("passed before a want", 50, |s| s.behind("want", "passed")),
    sort("first lines not by location", 50, |s| falls(s, "first")),
    sort("want lines not by location", 50, |s| falls(s, "want")),
    sort("run before a thread", 50, |s| s.behind("thread", "run")),
    sort("run without steps", 100, |s| {
        s.case.count == 0 && !s.places("run").is_empty()
    }),
    sort("tabs", 200, |s| said(s, |said| said.contains('\t'))),
    sort("blanks in a row", 200, |s| {
        said(s, |said| said.trim().contains("  "))
    }),
    sort("blanks at a line's end", 200, |s| {
        said(s, |said| !said.trim().is_empty() && said.ends_with(' '))
    }),
    sort("a line of blanks", 200, |s| {
        s.lines
            .iter()
            .any(|line| line.comment.is_none() && blank(line.said))
    }),
    sort("an empty line", 200, |s| {
        s.lines
            .iter()
            .rev()
            .skip(1)
            .any(|line| line.comment.is_none() && line.said.is_empty())
    }),
    sort("something before locations", 200, |s| {
        s.lines[0].said.trim().is_empty()
    }),
    sort("something inside a list", 200, inside_a_list),
    sort("line ends: LF alone", 200, |s| returns(s) == 0),
    sort("line ends: CRLF alone", 200, |s| returns(s) == ends(s)),
    sort("line ends: both", 200, |s| {
        (1..ends(s)).contains(&returns(s))
    }),
    sort("no end of the last line", 200, |s| !s.free.ends_with('\n')),
    sort("comment alone", 200, |s| {
        s.lines
            .iter()
            .any(|line| line.comment.is_some() && line.said.trim().is_empty())
    }),
    sort("comment behind a statement", 200, |s| {
        s.lines
            .iter()
            .any(|line| line.comment.is_some() && !line.said.trim().is_empty())
    }),
    sort("comment right behind a word", 200, |s| {
        s.lines
            .iter()
            .any(|line| line.comment.is_some() && line.said.ends_with(|c| c > ' '))
    }),
    sort("comment without characters", 200, |s| {
        remarked(s, str::is_empty)
    }),
    sort("comment with #", 200, |s| {
        remarked(s, |remark| remark.contains('#'))
    }),
    sort("comment with other letters", 200, |s| {
        remarked(s, |remark| !remark.is_ascii())
    }),
    sort("comment with controls", 200, |s| {
        remarked(s, |remark| remark.contains(|c| c < '\t'))
    }),
    sort("comment like a statement", 200, |s| {
        remarked(s, |remark| remark.contains("store x 1"))
    }),
    sort("hexadecimal, small digits", 200, |s| {
        hexadecimal(s, |digits| digits.contains(|c| ('a'..='f').contains(&c)))
    }),
    sort("hexadecimal, capital digits", 200, |s| {
        hexadecimal(s, |digits| digits.contains(|c| ('A'..='F').contains(&c)))
    }),
    sort("hexadecimal, zeros before", 200, |s| {
        hexadecimal(s, zeros_before)
    }),
    sort("a decimal number, zeros before", 200, |s| {
        ["first", "store", "xchg", "cmpxchg", "cas", "want"]
            .iter()
            .any(|key| zeros_behind(s, key))
    }),
    sort("a compare as cmpxchg", 200, |s| {
        !s.places("cmpxchg").is_empty()
    }),
    sort("a compare as cas", 200, |s| !s.places("cas").is_empty()),
    sort("a compare as either in one text", 50, |s| {
        ["cmpxchg", "cas"]
            .iter()
            .all(|key| !s.places(key).is_empty())
    }),
    sort("a thread, zeros before", 200, |s| zeros_behind(s, "thread")),
    sort("a passed line, zeros before", 100, |s| {
        zeros_behind(s, "passed")
    }),
    sort("a step in words, zeros before", 50, |s| {
        zeros_behind(s, "issue") || zeros_behind(s, "move")
    }),
    sort("a step in letters, zeros before", 50, |s| {
        letters(s, 'I', zeros_before)
            || letters(s, 'M', zeros_before)
            || letters(s, 'P', zeros_before)
    }),
    sort("steps in words, all three", 200, |s| {
        ["issue", "move", "persist"]
            .iter()
            .all(|key| !s.places(key).is_empty())
    }),
    sort("step in letters: I", 200, |s| letters(s, 'I', |_| true)),
    sort("step in letters: M", 200, |s| letters(s, 'M', |_| true)),
    sort("step in letters: P", 200, |s| letters(s, 'P', |_| true)),
];

fn named(s: &Sight, such: &[&str]) -> bool {
    s.names().iter().any(|name| such.contains(name))
}

fn another_plain_name(s: &Sight) -> bool {
    let mut pairs = s.names().iter().zip(PLAIN);
    pairs.any(|(name, own)| *name != own && PLAIN.contains(name))
}

fn apart_by_capitals(s: &Sight) -> bool {
    let mut small: Vec<String> = s.names().iter().map(|name| name.to_lowercase()).collect();
    small.sort_unstable();
    small.windows(2).any(|pair| pair[0] == pair[1])
}

fn passed_before_thread(s: &Sight) -> bool {
    let threads = s.places("thread");
    s.places("passed").iter().any(|&place| {
        let thread: usize = s.statements[place][1].parse().unwrap_or(0);
        threads.get(thread).map_or(false, |&own| place < own)
    })
}

/// The number of the location with that name.
fn number_of(s: &Sight, name: &str) -> Option<usize> {
    s.names().iter().position(|other| *other == name)
}

/// Two lines of the sort where the later one has the location with the lower number.
fn falls(s: &Sight, key: &str) -> bool {
    let lines = s.places(key);
    let at: Vec<Option<usize>> = lines
        .iter()
        .map(|&line| number_of(s, s.statements[line][1]))
        .collect();
    at.windows(2).any(|pair| pair[0] > pair[1])
}

/// A line whose names stand in another order than those of the locations.
fn line_falls(s: &Sight) -> bool {
    s.places("line").iter().any(|&place| {
        let names = s.statements[place][1..].iter();
        let at: Vec<Option<usize>> = names.map(|name| number_of(s, name)).collect();
        at.windows(2).any(|pair| pair[0] > pair[1])
    })
}

/// A persist names such a location of a line that has several, told beside the line's first.
fn persists(s: &Sight, such: fn(u8, u8) -> bool) -> bool {
    s.places("persist").iter().any(|&place| {
        let at = number_of(s, s.statements[place][1]).map_or(0, |at| at as u8);
        let line = on_line(&s.case, s.case.line_of(at));
        line.len() > 1 && such(at, line[0])
    })
}

fn said(s: &Sight, such: fn(&str) -> bool) -> bool {
    s.lines.iter().any(|line| such(line.said))
}

fn blank(said: &str) -> bool {
    !said.is_empty() && said.trim().is_empty()
}

/// A line that says nothing, with an instruction or a step behind it.
fn inside_a_list(s: &Sight) -> bool {
    let outside = [
        "locations",
        "line",
        "first",
        "thread",
        "want",
        "passed",
        "run",
        "",
    ];
    s.lines.windows(2).any(|pair| {
        let next = pair[1].said.split_whitespace().next().unwrap_or("");
        pair[0].said.trim().is_empty() && !outside.contains(&next)
    })
}

fn ends(s: &Sight) -> usize {
    s.free.matches('\n').count()
}

fn returns(s: &Sight) -> usize {
    s.free.matches("\r\n").count()
}

fn remarked(s: &Sight, such: fn(&str) -> bool) -> bool {
    s.lines.iter().any(|line| line.comment.map_or(false, such))
}

fn hexadecimal(s: &Sight, such: fn(&str) -> bool) -> bool {
    let mut numbers = s
        .statements
        .iter()
        .flatten()
        .filter_map(|word| word.strip_prefix("0x"));
    numbers.any(such)
}

fn zeros_before(digits: &str) -> bool {
    let mut characters = digits.chars();
    characters.next() == Some('0') && characters.next().map_or(false, |c| c.is_ascii_hexdigit())
}

/// Zeros before some word of a statement that begins so.
fn zeros_behind(s: &Sight, key: &str) -> bool {
    let such = s.statements.iter().filter(|words| words[0] == key);
    such.flatten().any(|word| zeros_before(word))
}

/// Some number behind that letter.
fn letters(s: &Sight, letter: char, such: fn(&str) -> bool) -> bool {
    let mut steps = s
        .statements
        .iter()
        .filter_map(|words| words[0].strip_prefix(letter));
    steps.any(|numbers| numbers.split('.').any(such))
}
