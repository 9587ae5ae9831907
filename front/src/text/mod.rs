//! The text form of docs/TEXT.md: a text read as a case or told its mistakes, and a case laid out as text.

mod hints;
pub mod layout;
mod operands;
pub mod parse;
mod registers;
mod sharing;
mod statements;
mod words;
