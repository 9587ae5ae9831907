//! The judge: a case and its bytes, the machine, the question, and programs gone through whole. What is
//! to be believed is here; it uses nothing of `streams`.

pub mod ask;
pub mod case;
pub mod fields;
pub mod form;
pub mod lines;
pub mod machine;
pub mod reading;
pub mod refusal;
pub mod remember;
pub mod walk;
pub mod whole;
pub mod writing;
