//! The second judge's answer to a frame of the question's stream, and its line.

use super::frame::Query;
use crate::judge::ask::{question, Reply};
use crate::streams::wire::{push_buffer, UNTOUCHED};

pub struct Answer {
    pub reply: Reply,
    /// The whole buffer, after the question.
    pub lent: Vec<u8>,
}

pub fn answer(query: &Query) -> Answer {
    let mut lent = vec![UNTOUCHED; query.room as usize];
    let reply = question(&query.input, &mut lent, query.budget);
    Answer { reply, lent }
}

impl Answer {
    pub fn line(&self) -> String {
        let mut line = format!("{} {} ", self.reply.number, self.reply.place);
        push_buffer(&mut line, &self.lent);
        line.push('\n');
        line
    }
}

/// The answer and how many runs were looked at for it: the least budget that decides, where one
/// up to the frame's does.
pub fn runs_line(query: &Query) -> String {
    let Reply { number, runs, .. } = answer(query).reply;
    format!("{number} {runs}\n")
}
