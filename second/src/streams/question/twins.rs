//! Frames that differ from the one before in the steps of their input and in nothing else.

use super::ledger::without_steps;
use crate::judge::case::{Case, Step};
use crate::streams::tally::{row, Row};
use std::collections::BTreeMap;

/// A frame that the next one may repeat with other steps in its input.
struct Before {
    case: Vec<u8>,
    steps: Vec<Step>,
    /// What is asked with: the numbers of the frame.
    with: Vec<u32>,
    line: String,
}

#[derive(Default)]
pub struct Twins {
    before: Option<Before>,
    /// By number answered.
    counts: BTreeMap<u8, u64>,
}

impl Twins {
    /// A frame with the same case and the same numbers as the one before has the same line.
    pub fn take(
        &mut self,
        case: &Case,
        with: &[u32],
        number: u8,
        line: String,
    ) -> Option<&'static str> {
        let now = Before {
            case: without_steps(case),
            steps: case.steps[..usize::from(case.count)].to_vec(),
            with: with.to_vec(),
            line,
        };
        let before = self.before.replace(now)?;
        let now = self.before.as_ref()?;
        let same = before.with == now.with && before.case == now.case;
        if same && before.steps != now.steps {
            *self.counts.entry(number).or_default() += 1;
            if before.line != now.line {
                return Some("the steps of the input change the answer");
            }
        }
        None
    }

    pub fn rows(&self, least: u64) -> Vec<Row> {
        let row = |number: u8| {
            let count = self.counts.get(&number).copied().unwrap_or(0);
            row(&format!("other steps, again {number}"), count, least)
        };
        [31, 100, 101, 102].into_iter().map(row).collect()
    }
}
