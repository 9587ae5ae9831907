//! What a folder of written cases holds, and whether that is enough.

use super::freedoms::FREEDOMS;
use super::sight::Sight;
use super::sorts::SORTS;
use super::written::Written;
use crate::judge::case::MOST_LOCATIONS;
use crate::streams::layouts::LayoutCounts;
use crate::streams::tally::{row, Counts, Row};

pub struct TextCounts {
    cases: u64,
    /// Of the sorts, and behind them of the freedoms.
    sorts: [u64; SORTS.len() + FREEDOMS.len()],
    layouts: LayoutCounts,
    faults: Vec<String>,
}

impl TextCounts {
    pub fn new() -> TextCounts {
        TextCounts {
            cases: 0,
            sorts: [0; SORTS.len() + FREEDOMS.len()],
            layouts: LayoutCounts::default(),
            faults: Vec::new(),
        }
    }
}

impl Counts<Written> for TextCounts {
    fn take(&mut self, written: &Written) {
        let place = self.cases;
        self.cases += 1;
        let sight = match Sight::of(written) {
            Some(sight) => sight,
            None => {
                let fault = format!("case {place}: its records cannot be read");
                return self.faults.push(fault);
            }
        };
        let sorts = SORTS.iter().chain(&FREEDOMS);
        for (sort, count) in sorts.zip(&mut self.sorts) {
            *count += u64::from((sort.told)(&sight));
        }
        self.layouts.take(&sight.case);
    }

    fn rows(&self) -> Vec<Row> {
        let sorts = SORTS.iter().chain(&FREEDOMS).zip(self.sorts);
        let rows = sorts.map(|(sort, count)| row(sort.name, count, sort.least));
        rows.chain(self.layouts.rows(5, 1..=MOST_LOCATIONS))
            .collect()
    }

    fn frames(&self) -> u64 {
        self.cases
    }

    fn wrong(&self) -> Vec<String> {
        self.faults.clone()
    }
}
