//! What a stream of frames holds, and whether that is enough.

use super::answer::{answer, Answer};
use super::frame::Frame;
use super::marks::{mark_of, FAMILIES};
use super::sorts::{changes, rewritten, SORTS};
use crate::judge::case::{MOST_LOCATIONS, MOST_STEPS};
use crate::judge::reading::Reading;
use crate::judge::refusal::{UNSET_REGISTER, WRONG_LENGTH};
use crate::streams::extents::ExtentCounts;
use crate::streams::layouts::LayoutCounts;
use crate::streams::once::OnceCounts;
use crate::streams::sizes::{HEAD, LONGEST, LONG_HEADER, SHORT_HEADER};
use crate::streams::tally::{few_of, row, Counts, Row};

/// Files are cut at every length up to the longest file's.
const LENGTHS: usize = LONGEST + 1;

/// Lengths that a program record tells, up to one beyond the longest.
const TOLD: usize = LONG_HEADER as usize + 2;

pub struct FrameCounts {
    frames: u64,
    read: [u64; 11],
    /// Refused with 10, though they were not made for that.
    strays: u64,
    sorts: [u64; SORTS.len()],
    families: [u64; FAMILIES.len()],
    lengths: [bool; LENGTHS],
    /// First records that tell such a length: those that were read, and those that were refused with 3.
    told: [[u64; 2]; TOLD],
    /// Of the cases that were read and not changed.
    layouts: LayoutCounts,
    extents: ExtentCounts,
    once: OnceCounts,
    faults: Vec<String>,
}

impl FrameCounts {
    pub fn new() -> FrameCounts {
        FrameCounts {
            frames: 0,
            read: [0; 11],
            strays: 0,
            sorts: [0; SORTS.len()],
            families: [0; FAMILIES.len()],
            lengths: [false; LENGTHS],
            told: [[0; 2]; TOLD],
            layouts: LayoutCounts::default(),
            extents: ExtentCounts::new(),
            once: OnceCounts::default(),
            faults: Vec::new(),
        }
    }

    /// Read is a program record that something stands behind, or nothing.
    fn take_header(&mut self, frame: &Frame, answer: &Answer) {
        if let Some(&[low, high, 1, 0]) = frame.input.get(..HEAD) {
            let told = self.told.get_mut(u16::from_le_bytes([low, high]) as usize);
            let Reading { number, offset, .. } = answer.reading;
            if let Some([read, refused]) = told {
                *read += u64::from(number == 0 || offset > 0);
                *refused += u64::from(number == WRONG_LENGTH && offset == 0);
            }
        }
    }

    /// Each length is read in some version, but for the one below all and the one beyond.
    fn header_rows(&self) -> Vec<Row> {
        let mut rows = Vec::new();
        for length in SHORT_HEADER - 1..=LONG_HEADER + 1 {
            let [read, refused] = self.told[usize::from(length)];
            if (SHORT_HEADER..=LONG_HEADER).contains(&length) {
                let name = format!("header of {length}, read");
                rows.push(row(&name, read, 100));
            }
            rows.push(row(&format!("header of {length}: 3"), refused, 15));
        }
        rows
    }

    /// A marked frame has one right answer; a case as it was read always fits.
    fn check(&mut self, frame: &Frame, answer: &Answer) {
        let place = self.frames;
        if !changes(frame) && answer.number == 32 {
            self.faults
                .push(format!("frame {place}: 32 for a case as read"));
        }
        if let Some(mark) = mark_of(frame) {
            self.families[mark.family] += 1;
            let got = (answer.reading.number, answer.reading.offset);
            if got != (mark.number, mark.offset) {
                let name = FAMILIES[mark.family].name;
                let right = (mark.number, mark.offset);
                let fault = format!("frame {place}, {name}: {got:?} instead of {right:?}");
                self.faults.push(fault);
            }
        }
    }
}

impl Counts<Frame> for FrameCounts {
    fn take(&mut self, frame: &Frame) {
        let answer = answer(frame);
        self.frames += 1;
        self.read[usize::from(answer.reading.number)] += 1;
        let made_for = mark_of(frame).map_or(false, |mark| mark.number == UNSET_REGISTER);
        let stray = answer.reading.number == UNSET_REGISTER && !made_for;
        self.strays += u64::from(stray);
        for (sort, count) in SORTS.iter().zip(&mut self.sorts) {
            *count += u64::from((sort.told)(frame, &answer));
        }
        if let Some(seen) = self.lengths.get_mut(frame.input.len()) {
            *seen = true;
        }
        self.take_header(frame, &answer);
        if rewritten(frame, &answer) {
            self.layouts.take(&answer.reading.case);
            self.extents.take(&answer.reading.case);
            self.once.take(&answer.reading.case);
        }
        self.check(frame, &answer);
    }

    fn rows(&self) -> Vec<Row> {
        let mut rows = Vec::new();
        for (number, &count) in self.read.iter().enumerate() {
            rows.push(row(&format!("read: {number}"), count, 500));
        }
        let most = few_of(self.frames);
        rows.push(row("read: 10, not made for it", self.strays, 0).at_most(most));
        for (sort, &count) in SORTS.iter().zip(&self.sorts) {
            rows.push(row(sort.name, count, sort.least));
        }
        for (family, &count) in FAMILIES.iter().zip(&self.families) {
            rows.push(row(family.name, count, family.least));
        }
        let lengths = self.lengths.iter().filter(|&&seen| seen).count() as u64;
        rows.push(row(
            "input lengths seen, to the longest",
            lengths,
            LENGTHS as u64,
        ));
        rows.extend(self.header_rows());
        rows.extend(self.layouts.rows(20, 1..=MOST_LOCATIONS));
        rows.extend(self.extents.rows(100, MOST_STEPS as u64 + 1));
        rows.extend(self.once.rows("read", [100, 100, 100, 40, 40]));
        rows
    }

    fn frames(&self) -> u64 {
        self.frames
    }

    fn wrong(&self) -> Vec<String> {
        self.faults.clone()
    }
}
