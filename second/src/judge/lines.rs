//! Cache lines: which numbers the locations of a program may bear for them.

/// How many lines there are, if they are numbered from 0 in the order of their first location.
pub fn count(lines: &[u8]) -> Option<u8> {
    lines.iter().try_fold(0, |seen, &line| match line {
        new if new == seen => Some(seen + 1),
        old if old < seen => Some(seen),
        _ => None,
    })
}

/// A line each.
pub fn are_own(lines: &[u8]) -> bool {
    (0..).zip(lines).all(|(location, &line)| location == line)
}
