//! The stream of cases, which are read, changed in a field and written: its frames, their answers and
//! counts.

pub mod answer;
pub mod counts;
pub mod fields;
pub mod frame;
pub mod generate;
pub mod marks;
mod sorts;
