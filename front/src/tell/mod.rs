//! An answer in words and as JSON: what a run does, what a power cut leaves, what a rule or a refusal says.

pub mod blocker;
mod cut;
pub mod json;
pub mod objects;
pub mod report;
pub mod rules;
pub mod run;
