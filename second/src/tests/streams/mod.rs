//! Tests of the streams.

mod cases;
mod layouts;
mod machine;
mod once;
mod question;
mod registers;
mod remember;
mod text;
mod whole;
