//! The machine of document 01: states, the rules of steps, number 33, work left and the judge.

pub mod blocker;
pub mod effects;
pub mod fit;
pub mod judge;
pub mod key;
mod row;
pub mod rules;
pub mod state;
pub mod steps;
pub mod work;
