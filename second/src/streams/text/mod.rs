//! Texts of cases, written from docs/TEXT.md alone: the one text of a case, and texts that take every
//! freedom of the grammar.

pub mod cases;
pub mod counts;
pub mod files;
mod free;
mod freedoms;
pub mod mistakes;
mod names;
mod plain;
mod sight;
mod sorts;
mod statements;
pub mod written;
