//! What may have been meant by a word that is not known.

/// Other words for a statement's first word.
const ALSO: [(&str, &str); 18] = [
    ("clwb", "clflushopt"),
    ("exchange", "xchg"),
    ("swap", "xchg"),
    ("compare", "cmpxchg"),
    ("cmp", "cmpxchg"),
    ("cmpswap", "cmpxchg"),
    ("compare-and-swap", "cmpxchg"),
    ("compare-exchange", "cmpxchg"),
    ("compare_exchange", "cmpxchg"),
    ("flush", "clflush"),
    ("flushopt", "clflushopt"),
    ("flush-opt", "clflushopt"),
    ("fence", "sfence"),
    ("write", "store"),
    ("mov", "store"),
    ("read", "load"),
    ("cacheline", "line"),
    ("cache-line", "line"),
];

/// What is meant by another word for a statement, else by the nearest spelling.
pub fn statement(found: &str, known: &[&str]) -> String {
    let small = found.to_ascii_lowercase();
    match ALSO.iter().find(|(other, _)| *other == small) {
        Some((_, meant)) => ask(meant),
        None => spelling(found, known.iter().copied()),
    }
}

/// The nearest spelling, if one is near: at most two letters off and fewer than half of them.
pub fn spelling<'a>(found: &str, known: impl Iterator<Item = &'a str>) -> String {
    if found.len() > 40 {
        return String::new();
    }
    let small = found.to_ascii_lowercase();
    let far = |word: &str| distance(&small, &word.to_ascii_lowercase());
    match known.min_by_key(|word| far(word)) {
        Some(word) if far(word) <= 2 && far(word) * 2 < word.len().max(2) => ask(word),
        _ => String::new(),
    }
}

fn ask(word: &str) -> String {
    format!("; did you mean '{word}'?")
}

/// How many letters must be put in, left out or changed.
fn distance(one: &str, other: &str) -> usize {
    let other: Vec<char> = other.chars().collect();
    let mut row: Vec<usize> = (0..=other.len()).collect();
    for (i, c) in one.chars().enumerate() {
        let mut next = vec![i + 1];
        for (j, d) in other.iter().enumerate() {
            let changed = row[j] + usize::from(c != *d);
            next.push(changed.min(row[j + 1] + 1).min(next[j] + 1));
        }
        row = next;
    }
    row[other.len()]
}
