//! Which locations of a program share a cache line: layouts from numbers drawn, and cases counted by
//! their layout.

use crate::judge::case::{Case, MOST_LOCATIONS, OWN_LINES, TOLD_LINES};
use crate::streams::random::Random;
use crate::streams::tally::{row, Row};
use std::ops::RangeInclusive;

#[derive(Clone, Debug)]
pub struct Layout {
    pub version: u16,
    /// By location, numbered in the order of their first location.
    pub line: Vec<u8>,
}

impl Layout {
    /// Version 1.
    pub fn own(locations: u8) -> Layout {
        Layout {
            version: OWN_LINES,
            line: (0..locations).collect(),
        }
    }

    /// Version 2.
    pub fn told(line: &[u8]) -> Layout {
        Layout {
            version: TOLD_LINES,
            line: line.to_vec(),
        }
    }

    /// Each way to share lines, and a line each in both versions.
    pub fn draw(random: &mut Random, locations: u8) -> Layout {
        let by = |line: fn(u8) -> u8| Layout::told(&(0..locations).map(line).collect::<Vec<u8>>());
        match random.below(9) {
            0..=2 => Layout::own(locations),
            3 => by(|_| 0),
            4 => by(|at| at / 2),
            5 => by(|at| at % 2),
            6 => by(|at| at),
            _ => Layout::mixed(random, locations),
        }
    }

    /// Each location on the next line or, more or less often, on one of those before.
    fn mixed(random: &mut Random, locations: u8) -> Layout {
        let mut line = vec![0];
        let mut seen = 1;
        let rarely = random.pick(&[2, 3, locations.max(6).into()]);
        for _ in 1..locations {
            let again = random.between(0, seen - 1);
            let next = if random.one_in(rarely) { again } else { seen };
            seen += u8::from(next == seen);
            line.push(next);
        }
        Layout::told(&line)
    }

    /// Drawn until it has so many lines, and two locations on one where they must be.
    pub fn with_lines(random: &mut Random, locations: u8, least: u8, sharing: bool) -> Layout {
        loop {
            let layout = Layout::draw(random, locations);
            if layout.lines() >= least && (!sharing || layout.lines() < locations) {
                return layout;
            }
        }
    }

    pub fn locations(&self) -> u8 {
        self.line.len() as u8
    }

    pub fn lines(&self) -> u8 {
        self.line.iter().max().map_or(0, |last| last + 1)
    }

    /// What the program record says of it behind its sizes.
    pub fn told_lines(&self) -> &[u8] {
        match self.version {
            TOLD_LINES => &self.line,
            _ => &[],
        }
    }
}

/// A program of that layout, without instructions.
pub fn case(threads: u8, layout: &Layout) -> Case {
    let mut case = Case::of_size(threads, layout.locations());
    case.set_lines(layout.version, &layout.line);
    case
}

/// The same program with a line for each location, in version 1.
pub fn apart(case: &Case) -> Case {
    let own = Layout::own(case.locations);
    let mut apart = case.clone();
    apart.set_lines(own.version, &own.line);
    apart
}

/// The locations on a line.
pub fn on_line(case: &Case, line: usize) -> Vec<u8> {
    let all = 0..case.locations;
    all.filter(|&at| case.line_of(at) == line).collect()
}

/// The locations on all other lines than that one's.
pub fn elsewhere(case: &Case, at: u8) -> Vec<u8> {
    let all = 0..case.locations;
    all.filter(|&other| case.line_of(other) != case.line_of(at))
        .collect()
}

/// Another location of its line, or itself where it has none.
pub fn neighbour(random: &mut Random, case: &Case, at: u8) -> u8 {
    let mut others = on_line(case, case.line_of(at));
    others.retain(|&other| other != at);
    random.pick_some(&others).unwrap_or(at)
}

/// A layout as it is told of a case.
type Kind = (&'static str, fn(&Case) -> bool);

const KINDS: [Kind; 6] = [
    ("version 1", |case| case.version == OWN_LINES),
    ("version 2, all on one line", |case| {
        told(case) && case.locations > 1 && case.lines == 1
    }),
    ("version 2, in pairs", |case| {
        told(case) && case.locations > 2 && used(case).all(|(at, line)| line == at / 2)
    }),
    ("version 2, a line each", |case| {
        told(case) && case.locations > 1 && case.lines == case.locations
    }),
    ("version 2, some lines shared", |case| {
        told(case) && (2..case.locations).contains(&case.lines)
    }),
    ("version 2, a line comes again", |case| {
        told(case) && used(case).any(|(at, line)| at > 0 && line < case.line[usize::from(at) - 1])
    }),
];

fn told(case: &Case) -> bool {
    case.version == TOLD_LINES
}

/// The program's locations with their lines.
fn used(case: &Case) -> impl Iterator<Item = (u8, u8)> + '_ {
    (0..case.locations).map(|at| (at, case.line[usize::from(at)]))
}

/// Cases by their layout, and those of version 2 by their number of locations and of lines.
#[derive(Default)]
pub struct LayoutCounts {
    kinds: [u64; KINDS.len()],
    locations: [u64; MOST_LOCATIONS],
    lines: [u64; MOST_LOCATIONS],
}

impl LayoutCounts {
    pub fn take(&mut self, case: &Case) {
        for ((_, is), count) in KINDS.iter().zip(&mut self.kinds) {
            *count += u64::from(is(case));
        }
        if told(case) {
            self.locations[usize::from(case.locations) - 1] += 1;
            self.lines[usize::from(case.lines) - 1] += 1;
        }
    }

    /// Each kind, each number of locations, and of lines up to as many, at least so often.
    pub fn rows(&self, least: u64, locations: RangeInclusive<usize>) -> Vec<Row> {
        let kinds = KINDS.iter().zip(self.kinds);
        let mut rows: Vec<Row> = kinds
            .map(|((name, _), count)| row(name, count, least))
            .collect();
        let lines = 1..=*locations.end();
        for (name, numbers, counts) in [
            ("locations", locations, self.locations),
            ("lines", lines, self.lines),
        ] {
            for number in numbers {
                let name = format!("version 2, {name}: {number}");
                rows.push(row(&name, counts[number - 1], least));
            }
        }
        rows
    }
}
