//! A valid file as its records, kind by kind.

use super::records::*;
use crate::judge::case::{MOST_STEPS, MOST_THREADS};
use crate::streams::layouts::Layout;
use crate::streams::random::Random;
use crate::streams::sizes::{INSTRUCTIONS, LOCATIONS, THREADS};

pub struct Sketch {
    pub threads: u8,
    pub locations: u8,
    pub layout: Layout,
    pub counts: [u8; MOST_THREADS],
    /// Records of kind k at k - 1.
    pub sections: [Vec<Record>; 6],
}

/// How much of each kind: least and most instructions of a thread, steps, and how many
/// eighths of the locations and threads have a record of kinds 2, 4 and 5.
pub struct Fill {
    pub instructions: (u8, u8),
    pub steps: (usize, usize),
    pub eighths: u8,
}

impl Sketch {
    pub fn new(random: &mut Random, threads: u8, layout: Layout, fill: &Fill) -> Sketch {
        let mut sketch = Sketch {
            threads,
            locations: layout.locations(),
            layout,
            counts: [0; MOST_THREADS],
            sections: Default::default(),
        };
        sketch.sections[0].push(program(threads, &sketch.layout));
        for thread in 0..threads {
            let count = random.between(fill.instructions.0, fill.instructions.1);
            sketch.fill_thread(random, thread, count);
        }
        sketch.fill_questions(random, fill.eighths);
        let (least, most) = fill.steps;
        for _ in 0..least + random.below(most - least + 1) {
            let step = sketch.record(random, 6);
            sketch.sections[5].push(step);
        }
        sketch
    }

    pub fn fill_thread(&mut self, random: &mut Random, thread: u8, count: u8) {
        self.counts[usize::from(thread)] = count;
        let code = random_thread(random, thread, count, self.locations);
        self.sections[2].extend(code);
    }

    fn fill_questions(&mut self, random: &mut Random, eighths: u8) {
        for location in 0..self.locations {
            if random.between(0, 7) < eighths {
                self.sections[1].push(placed_word(2, location, random.nonzero_word()));
            }
            if random.between(0, 7) < eighths {
                self.sections[3].push(placed_word(4, location, random.word()));
            }
        }
        for thread in 0..self.threads {
            let most = self.counts[usize::from(thread)];
            if most > 0 && random.between(0, 7) < eighths {
                let least = random.between(1, most);
                self.sections[4].push(Record::new(5, &[thread, least]));
            }
        }
    }

    /// Any size from 8 bytes up, large and small ones alike often.
    pub fn any(random: &mut Random) -> Sketch {
        let (threads, layout) = (random.between(1, THREADS), any_layout(random, 1));
        let most = random.pick(&[0, 1, 2, 4, 8, INSTRUCTIONS, INSTRUCTIONS]);
        let fill = Fill {
            instructions: (random.between(0, most), most),
            steps: random.pick(&[
                (0, 0),
                (0, 4),
                (0, 4),
                (5, 20),
                (20, MOST_STEPS),
                (MOST_STEPS - 1, MOST_STEPS),
            ]),
            eighths: random.pick(&[0, 2, 4, 6, 8]),
        };
        Sketch::new(random, threads, layout, &fill)
    }

    /// A small one with a record of every kind, so that a fault of any sort finds its place.
    pub fn lively(random: &mut Random) -> Sketch {
        let fill = Fill {
            instructions: (1, 3),
            steps: (1, 5),
            eighths: 4,
        };
        loop {
            let (threads, layout) = (random.between(2, THREADS), any_layout(random, 2));
            let sketch = Sketch::new(random, threads, layout, &fill);
            if sketch.sections.iter().all(|section| !section.is_empty()) {
                return sketch;
            }
        }
    }

    /// As long as a file of its version can be.
    pub fn longest(random: &mut Random) -> Sketch {
        let fill = Fill {
            instructions: (INSTRUCTIONS, INSTRUCTIONS),
            steps: (MOST_STEPS, MOST_STEPS),
            eighths: 8,
        };
        let layout = Layout::draw(random, LOCATIONS);
        Sketch::new(random, THREADS, layout, &fill)
    }

    pub fn records(&self) -> Vec<Record> {
        self.sections.concat()
    }

    pub fn bytes(&self) -> Vec<u8> {
        join(&self.records())
    }

    /// All records of lower kinds, and the first few of this kind.
    pub fn before(&self, kind: u16, few: usize) -> Vec<Record> {
        let kinds = usize::from(kind) - 1;
        let mut records = self.sections[..kinds].concat();
        records.extend_from_slice(&self.sections[kinds][..few]);
        records
    }

    /// A record of the kind with every field in range; its order is the caller's matter.
    pub fn record(&self, random: &mut Random, kind: u16) -> Record {
        match kind {
            1 => program(self.threads, &self.layout),
            2 | 4 => {
                let location = random.between(0, self.locations - 1);
                self.record_at(random, kind, location)
            }
            3 | 5 => {
                let thread = random.between(0, self.threads - 1);
                self.record_at(random, kind, thread)
            }
            _ => random_step(random, self.threads, self.layout.lines()),
        }
    }

    /// A record of kinds 2 to 5 for that thread or location.
    pub fn record_at(&self, random: &mut Random, kind: u16, at: u8) -> Record {
        match kind {
            2 => placed_word(2, at, random.nonzero_word()),
            3 => random_instruction(random, at, self.locations),
            4 => placed_word(4, at, random.word()),
            _ => {
                let most = self.counts[usize::from(at)];
                Record::new(5, &[at, random.between(1, most)])
            }
        }
    }
}

/// Of so many locations at least.
pub fn any_layout(random: &mut Random, least: u8) -> Layout {
    let locations = random.between(least, LOCATIONS);
    Layout::draw(random, locations)
}
