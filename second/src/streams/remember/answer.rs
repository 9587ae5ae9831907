//! The second judge's answer to a frame of the stream, and its line.

use super::frame::Loan;
use crate::judge::remember::{clears, remember, states_told};
use crate::streams::question::answer::Answer;
use crate::streams::wire::{push_buffer, UNTOUCHED};

pub fn answer(loan: &Loan) -> Answer {
    let mut lent = vec![UNTOUCHED; loan.query.room as usize];
    let reply = remember(&loan.query.input, &mut lent, loan.words, loan.query.budget);
    Answer { reply, lent }
}

pub fn line(loan: &Loan, answer: &Answer) -> String {
    let reply = &answer.reply;
    let memory = match loan.words {
        0 => "-",
        _ if clears(reply.number) => "zeros",
        _ => "kept",
    };
    let states = states_told(reply);
    let mut line = format!("{} {} {states} {memory} ", reply.number, reply.place);
    push_buffer(&mut line, &answer.lent);
    line.push('\n');
    line
}
