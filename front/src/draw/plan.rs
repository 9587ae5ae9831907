//! Where everything stands in the picture: a column for each buffer and each cache line, a row for each step.

use super::ink::{chip_width, columns, small_width, wrap, CHIP_OVER};
use super::words;
use crate::case::{Instruction, Step};
use crate::story::compares::{self, Compared};
use crate::story::lives::{self, Life};
use crate::story::Story;

pub const MARGIN: i32 = 6;
pub const ROW: i32 = 42;
pub const START: i32 = 32;
/// The height of the columns' heads, and of those that a long run repeats.
pub const HEADS: i32 = 44;
pub const AGAIN: i32 = 26;
/// Rows between repeated heads.
pub const BATCH: usize = 16;
/// The way from one lane to the next.
const PITCH: i32 = 13;
const GAP: i32 = 3;
/// What a chip may need on its left, the head of the arrow that leads to it, and on its right, an arrow to memory.
const STUB: i32 = 12;
/// The width of a step as the programs print it.
const CODE: i32 = 50;
/// What stands below the last step, so that its end is seen.
const TAIL: i32 = 16;
const LEAST_WIDTH: i32 = 340;
/// A picture that is wider has the steps at its right side too, and sentences that are not as wide as it is.
const WIDE: i32 = 1600;

/// A buffer's or a queue's place. Position 0, the oldest entry, has the lane at the right: entries go from left to right.
#[derive(Clone, Copy)]
pub struct Column {
    pub left: i32,
    pub right: i32,
    /// The lane of position 0.
    pub lane: i32,
    /// Where the persistent words' bands begin, the last of which ends where the column does; a buffer has none.
    pub band: i32,
}

/// A location's persistent word.
#[derive(Clone, Copy)]
pub struct Band {
    pub left: i32,
    pub right: i32,
    /// Where the room for its name begins: with its line's queue where the location has the line to itself.
    pub room: i32,
}

impl Band {
    pub fn middle(&self) -> i32 {
        (self.room + self.right) / 2
    }

    pub fn width(&self) -> i32 {
        self.right - self.room
    }
}

impl Column {
    /// So much room for what waits, then so much for the bands: of a buffer none.
    fn new(left: i32, room: i32, bands: i32) -> Column {
        let end = if bands > 0 { STUB } else { GAP };
        Column {
            left,
            right: left + room + bands,
            lane: left + room - CHIP_OVER - end,
            band: left + room,
        }
    }

    pub fn lane_of(&self, position: usize) -> i32 {
        self.lane - PITCH * position as i32
    }

    pub fn width(&self) -> i32 {
        self.right - self.left
    }
}

pub struct Plan<'a> {
    pub story: &'a Story,
    pub lives: Vec<Life>,
    /// The compares that fail, each with its row.
    pub failed: Vec<(usize, Compared)>,
    /// The number of legal steps.
    pub legal: usize,
    /// The width of the steps' numbers, and of their whole labels.
    pub numbers: i32,
    pub labels: i32,
    pub buffers: Vec<Column>,
    /// By cache line.
    pub queues: Vec<Column>,
    /// By location.
    pub bands: Vec<Band>,
    pub width: i32,
    /// Where the steps stand: at the left, and perhaps at the right.
    pub sides: Vec<i32>,
    pub verdict: Vec<String>,
    /// The top of the columns' heads.
    pub top: i32,
}

impl<'a> Plan<'a> {
    pub fn new(story: &'a Story) -> Plan<'a> {
        let mut plan = Plan {
            story,
            lives: lives::lives(story),
            failed: compares::failed(story).collect(),
            legal: story.states.len().saturating_sub(1).min(story.run.len()),
            numbers: 0,
            labels: 0,
            buffers: Vec::new(),
            queues: Vec::new(),
            bands: Vec::new(),
            width: 0,
            sides: vec![MARGIN],
            verdict: Vec::new(),
            top: 0,
        };
        plan.numbers = 7 * columns(&plan.legal.to_string()).max(2) + 6;
        plan.labels = plan.label_width();
        plan.place_columns();
        plan.verdict = wrap(&words::verdict(story), 16, plan.reading());
        plan.top = 50 + 21 * plan.verdict.len() as i32;
        plan
    }

    /// How wide its sentences are.
    pub fn reading(&self) -> i32 {
        self.width.min(WIDE) - 2 * MARGIN
    }

    /// The life that a step touches.
    pub fn touched(&self, index: usize) -> Option<usize> {
        let at = Some(index);
        self.lives
            .iter()
            .position(|life| life.issued == index || life.moved == at || life.persisted == at)
    }

    pub fn deed(&self, index: usize, most: i32) -> String {
        let life = self.touched(index).map(|one| &self.lives[one]);
        words::deed(self.story, index, life, most)
    }

    fn label_width(&self) -> i32 {
        let deeds = (0..self.legal).map(|index| small_width(&self.deed(index, words::SHORT)));
        deeds.max().unwrap_or(0).max(self.numbers + CODE) + 4
    }

    fn place_columns(&mut self) {
        let threads = self.story.case.threads.len();
        let lines = self.story.case.by_line();
        let buffers = (0..threads).map(|thread| (self.buffer_room(thread), 0));
        let queues = lines.iter().enumerate().map(|(line, locations)| {
            let room = self.queue_room(line, locations);
            (room, self.bands_width(locations))
        });
        let rooms: Vec<(i32, i32)> = buffers.chain(queues).collect();
        let taken: i32 = rooms.iter().map(|(room, bands)| room + bands + GAP).sum();
        self.labels = self.labels.max(LEAST_WIDTH - taken - 2 * MARGIN);
        let mut left = MARGIN + self.labels;
        for (room, bands) in rooms {
            self.buffers.push(Column::new(left, room, bands));
            left += room + bands + GAP;
        }
        self.queues = self.buffers.split_off(threads);
        self.width = left - GAP + MARGIN;
        if self.width > WIDE {
            self.sides.push(self.width);
            self.width += self.numbers + CODE + MARGIN;
        }
        self.place_bands(&lines);
    }

    /// The bands of a line side by side, behind its queue.
    fn place_bands(&mut self, lines: &[Vec<usize>]) {
        let none = Band {
            left: 0,
            right: 0,
            room: 0,
        };
        self.bands = vec![none; self.story.case.names.len()];
        for (column, locations) in self.queues.iter().zip(lines) {
            let mut left = column.band;
            for &at in locations {
                let right = left + self.band_width(at);
                let room = if locations.len() > 1 {
                    left
                } else {
                    column.left
                };
                self.bands[at] = Band { left, right, room };
                left = right + STUB;
            }
        }
    }

    /// The width that a buffer's column needs: each chip stands left of the lanes in use.
    fn buffer_room(&self, thread: usize) -> i32 {
        let room = |index: usize| {
            let before = self.story.states[index].buffers[thread].len() as i32;
            before * PITCH + chip_width(&self.issue_chip(index))
        };
        let own = |index: &usize| {
            self.story.run[*index]
                == Step::Issue {
                    thread: thread as u8,
                }
        };
        let most = (0..self.legal).filter(own).map(room).max().unwrap_or(0);
        (most + STUB + 2 * GAP - 1).max(78)
    }

    /// The width that a line's queue needs, the arrow to its first band included.
    fn queue_room(&self, line: usize, locations: &[usize]) -> i32 {
        let room = |life: &Life| {
            let before = life
                .moved
                .map_or(0, |index| self.story.states[index].queues[line].len());
            before as i32 * PITCH + chip_width(&words::held(&self.story.case, life, words::SHORT))
        };
        let moved = self
            .lives
            .iter()
            .filter(|life| life.queue == Some(line))
            .filter(|life| life.moved.is_some());
        let least = match locations {
            [at] => self.head_width(*at) - self.band_width(*at),
            _ => columns(&words::line(line)) * 8 + 10,
        };
        (moved.map(room).max().unwrap_or(0) + 2 * STUB)
            .max(42)
            .max(least)
    }

    /// The width that a location's name needs, and what is wanted of it.
    fn head_width(&self, at: usize) -> i32 {
        let name = columns(&self.story.case.names[at]).min(14) * 8;
        let held = self.story.states.last().map(|state| state.words[at]);
        let wanted = self.story.case.wants[at].map(|want| words::wanted(want, Some(want) == held));
        name.max(wanted.map_or(0, |words| columns(&words) * 8)) + 10
    }

    fn bands_width(&self, locations: &[usize]) -> i32 {
        let bands: i32 = locations.iter().map(|at| self.band_width(*at)).sum();
        bands + STUB * (locations.len() as i32 - 1)
    }

    /// The width of a persistent word; on a shared line its name stands above it alone.
    fn band_width(&self, at: usize) -> i32 {
        let words = self
            .story
            .states
            .iter()
            .map(|state| columns(&state.words[at].to_string()));
        let least = match self.story.case.is_shared(self.story.case.line_of(at as u8)) {
            true => self.head_width(at),
            false => 44,
        };
        (words.max().unwrap_or(0) * 8 + 8).max(44).max(least)
    }

    /// What an issue shows in its thread's buffer: the entry, or what a load, an exchange or a compare brings, or the mfence.
    pub fn issue_chip(&self, index: usize) -> String {
        let Step::Issue { thread } = self.story.run[index] else {
            return String::new();
        };
        let own = thread as usize;
        let behind = &self.story.states[index + 1];
        match self.story.case.threads[own][behind.issued[own] - 1] {
            Instruction::Load { register, .. }
            | Instruction::Exchange { register, .. }
            | Instruction::Compare { register, .. } => {
                format!("r{register} = {}", behind.registers[own][register as usize])
            }
            Instruction::Mfence => "mfence".to_string(),
            _ => match self.touched(index) {
                Some(one) => words::entry(&self.story.case, self.lives[one].kind, words::SHORT),
                None => String::new(),
            },
        }
    }

    pub fn again(&self, row: usize) -> bool {
        row > 0 && row % BATCH == 0 && self.legal > BATCH + 4
    }

    pub fn row_top(&self, row: usize) -> i32 {
        let batches = if self.legal > BATCH + 4 {
            (row / BATCH) as i32
        } else {
            0
        };
        self.top + HEADS + START + ROW * row as i32 + AGAIN * batches
    }

    pub fn middle(&self, row: usize) -> i32 {
        self.row_top(row) + ROW / 2
    }

    /// Where the rows end and the closing part begins.
    pub fn bottom(&self) -> i32 {
        match self.legal {
            0 => self.top + HEADS + START,
            legal => self.row_top(legal - 1) + ROW + TAIL,
        }
    }
}
