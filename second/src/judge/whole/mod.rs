//! Small programs gone through whole: every state that some run reaches, and what demand 3 says of
//! them confirmed by counting. No frame is answered by it.

mod carried;
pub mod confirm;
pub mod engine;
mod explore;
pub mod outcome;
pub mod point;
pub mod program;
pub mod sentences;
mod shown;
