//! Layouts: every way to number the lines is drawn, and told of its case.

use crate::judge::case::{Case, MOST_LOCATIONS};
use crate::streams::layouts::{self, Layout, LayoutCounts};
use crate::streams::random::Random;
use std::collections::BTreeSet;

/// As many ways as four locations fall into groups, and a line each in version 1.
#[test]
fn every_layout_is_drawn() {
    let mut random = Random::new(2);
    let drawn = (0..3000).map(|_| Layout::draw(&mut random, 4));
    let all: BTreeSet<(u16, Vec<u8>)> = drawn.map(|one| (one.version, one.line)).collect();
    assert_eq!(all.len(), 15 + 1);
    for (_, line) in &all {
        let first = |number: u8| line.iter().position(|&one| one == number);
        let last = line.iter().max().copied().unwrap_or(0);
        let firsts: Vec<_> = (0..=last).map(first).collect();
        assert!(firsts
            .windows(2)
            .all(|pair| pair[0].is_some() && pair[0] < pair[1]));
    }
}

/// The names of the rows that a case of the layout counts for.
fn told(version: u16, line: &[u8]) -> Vec<String> {
    let layout = Layout {
        version,
        line: line.to_vec(),
    };
    let mut counts = LayoutCounts::default();
    counts.take(&layouts::case(1, &layout));
    let rows = counts.rows(1, 1..=MOST_LOCATIONS);
    let counted = rows.iter().filter(|row| row.count > 0);
    counted
        .map(|row| row.name.replace("version 2, ", ""))
        .collect()
}

#[test]
fn layouts_are_told() {
    assert_eq!(told(1, &[0, 1, 2]), ["version 1"]);
    assert_eq!(told(2, &[0]), ["locations: 1", "lines: 1"]);
    let one = ["all on one line", "locations: 2", "lines: 1"];
    assert_eq!(told(2, &[0, 0]), one);
    let own = ["a line each", "locations: 2", "lines: 2"];
    assert_eq!(told(2, &[0, 1]), own);
    let pairs = ["in pairs", "some lines shared", "locations: 3", "lines: 2"];
    assert_eq!(told(2, &[0, 0, 1]), pairs);
    let again = [
        "some lines shared",
        "a line comes again",
        "locations: 3",
        "lines: 2",
    ];
    assert_eq!(told(2, &[0, 1, 0]), again);
}

#[test]
fn neighbours_are_on_the_line() {
    let case = layouts::case(1, &Layout::told(&[0, 1, 0, 2, 0]));
    assert_eq!(layouts::on_line(&case, 0), [0, 2, 4]);
    assert_eq!(layouts::on_line(&case, 1), [1]);
    assert!(layouts::on_line(&case, 3).is_empty());
    assert_eq!(layouts::elsewhere(&case, 2), [1, 3]);
    let mut random = Random::new(1);
    let mut met = BTreeSet::new();
    for _ in 0..50 {
        met.insert(layouts::neighbour(&mut random, &case, 2));
        assert_eq!(layouts::neighbour(&mut random, &case, 3), 3);
    }
    assert_eq!(met, BTreeSet::from([0, 4]));
    let apart = layouts::apart(&case);
    assert_eq!((apart.version, apart.lines), (1, 5));
    assert_eq!(
        apart,
        Case {
            version: 1,
            ..layouts::case(1, &Layout::told(&[0, 1, 2, 3, 4]))
        }
    );
}
