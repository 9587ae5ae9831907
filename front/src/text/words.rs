//! A text cut into lines and words, each with its column.

use crate::messages::{Mistake, What};

pub struct Word<'a> {
    pub text: &'a str,
    /// From 1, in characters.
    pub column: usize,
}

pub struct Line<'a> {
    /// From 1.
    pub number: usize,
    pub words: Vec<Word<'a>>,
    /// The column behind the last word.
    pub end: usize,
}

/// The lines that can be read, and a mistake for each that cannot.
pub fn lines(bytes: &[u8]) -> (Vec<Line<'_>>, Vec<Mistake>) {
    let bytes = bytes.strip_prefix(b"\xef\xbb\xbf").unwrap_or(bytes);
    let (mut lines, mut mistakes) = (Vec::new(), Vec::new());
    for (i, line) in bytes.split(|byte| *byte == b'\n').enumerate() {
        match text_of(line) {
            Ok(text) => lines.push(line_of(i + 1, text)),
            Err((column, byte)) => mistakes.push(Mistake {
                line: i + 1,
                column,
                what: What::NotText(byte),
            }),
        }
    }
    (lines, mistakes)
}

/// A line as text, or the column and the byte that is none.
fn text_of(line: &[u8]) -> Result<&str, (usize, u8)> {
    let line = line.strip_suffix(b"\r").unwrap_or(line);
    let whole = match std::str::from_utf8(line) {
        Ok(text) => Ok(text),
        Err(error) => Err(error.valid_up_to()),
    };
    let good = whole.unwrap_or_else(|end| std::str::from_utf8(&line[..end]).unwrap_or(""));
    let statement = &good[..good.find('#').unwrap_or(good.len())];
    let bad = statement.find(is_control).or(whole.err());
    match bad {
        None => Ok(good),
        Some(at) => Err((good[..at].chars().count() + 1, line[at])),
    }
}

/// A tab is a blank; no other control character may stand outside a comment.
fn is_control(c: char) -> bool {
    c.is_ascii_control() && c != '\t'
}

fn line_of(number: usize, text: &str) -> Line<'_> {
    let text = &text[..text.find('#').unwrap_or(text.len())];
    let (mut words, mut end, mut start) = (Vec::new(), 1, None);
    // a blank behind the last character ends the last word
    for (column, (at, c)) in (1..).zip(text.char_indices().chain([(text.len(), ' ')])) {
        match (start, is_blank(c)) {
            (None, false) => start = Some((at, column)),
            (Some((from, column_from)), true) => {
                words.push(Word {
                    text: &text[from..at],
                    column: column_from,
                });
                (start, end) = (None, column);
            }
            _ => {}
        }
    }
    Line { number, words, end }
}

fn is_blank(c: char) -> bool {
    c == ' ' || c == '\t'
}
