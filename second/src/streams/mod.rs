//! What feeds the judge and counts what it was fed: a room for each stream, and beside them what all
//! streams share.

pub mod cases;
pub mod extents;
pub mod layouts;
pub mod machine;
pub mod once;
pub mod parts;
pub mod question;
pub mod random;
pub mod registers;
pub mod remember;
pub mod sizes;
pub mod tally;
pub mod text;
pub mod whole;
pub mod wire;
