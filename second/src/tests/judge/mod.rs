//! Tests of the judge.

mod blockers;
mod compares;
mod lines;
mod machine;
mod question;
mod reading;
mod registers;
mod remember;
mod states;
mod walk;
mod whole;
