//! Document 01's rules and refusal numbers, each in a sentence.

use crate::case::Case;
use crate::sizes;
use crate::story::Refusal;

/// A rule as a sentence with its number.
pub fn sentence(case: &Case, number: u32) -> String {
    format!("Rule {number}: {}.", rule(case, number))
}

/// A rule, in words of the cache line where locations share one.
pub fn rule(case: &Case, number: u32) -> &'static str {
    match number {
        26 if case.has_shared() => {
            "a clflushopt may not pass a store or clflush of its own cache line, nor an sfence"
        }
        27 if case.has_shared() => {
            "a clflush leaves the buffer only when its cache line's queue is empty, markers counted"
        }
        29 if case.has_shared() => {
            "a persist takes the oldest entry of the cache line's queue, and the queue is empty"
        }
        _ => rule_of_locations(number),
    }
}

fn rule_of_locations(number: u32) -> &'static str {
    match number {
        21 => "a thread issues only while it has an instruction left",
        22 => "an xchg, cmpxchg or mfence is issued only when the thread's own buffer is empty",
        23 => {
            "an xchg, cmpxchg or mfence is issued only when no queue holds a marker of the thread"
        }
        24 => "a move takes an entry of the buffer, and there is none at that position",
        25 => "behind position 0 only a clflushopt may leave the buffer",
        26 => "a clflushopt may not pass a store or clflush of its own location, nor an sfence",
        27 => {
            "a clflush leaves the buffer only when its location's queue is empty, markers counted"
        }
        28 => "an sfence leaves the buffer only when no queue holds a marker of its thread",
        29 => "a persist takes the oldest entry of the location's queue, and the queue is empty",
        _ => "a rule that this front door has no words for",
    }
}

/// A refusal; of a program record that may give cache lines, in words of its fields.
pub fn refusal(refused: &Refusal) -> String {
    let words = match refused.number {
        3 if refused.is_lined => {
            "a program's length is 4, and in version 2 one more for each location"
        }
        8 if refused.is_lined => {
            "a program's line numbers are not in order: each is one before it or the next, from 0"
        }
        5 if refused.is_lined => return ranges(),
        7 => return one_more(sizes::INSTRUCTIONS, "instruction of a thread"),
        9 => return one_more(sizes::STEPS, "step record"),
        number => refusal_of_any(number),
    };
    words.to_string()
}

fn ranges() -> String {
    let (threads, locations) = (sizes::THREADS, sizes::LOCATIONS);
    format!("a program has version 1 or 2, 1 to {threads} threads and 1 to {locations} locations")
}

/// The first that is too many.
fn one_more(most: usize, of: &str) -> String {
    format!("a {} {of}", ordinal(most + 1))
}

/// A place in a row as it is said: 1st, 2nd, 3rd, 4th, but 11th, 12th and 13th.
fn ordinal(number: usize) -> String {
    let end = match (number % 100, number % 10) {
        (11..=13, _) => "th",
        (_, 1) => "st",
        (_, 2) => "nd",
        (_, 3) => "rd",
        _ => "th",
    };
    format!("{number}{end}")
}

fn refusal_of_any(number: u32) -> &'static str {
    match number {
        1 => "fewer than 4 bytes where a record must start, or a record is cut short",
        2 => "a record's kind is not 1 to 6",
        3 => "a record's length is not the one for its kind",
        4 => {
            "the first record is no program, a second program, or a kind lower than the one before"
        }
        5 => "a number is out of range",
        6 => "records are not in their order",
        8 => "an unused field is not 0, or a first content or a passed count is 0",
        10 => "a register is stored or compared, and no instruction of its thread before that sets it",
        33 => "a state does not fit its case: it has what the program lacks, more than there is room for, or a write in another line's queue",
        _ => "a number that this front door has no words for",
    }
}

#[cfg(test)]
mod tests {
    use super::*;

    #[test]
    fn an_ordinal_ends_as_it_is_said() {
        let ends = [(1, "st"), (2, "nd"), (3, "rd"), (4, "th"), (10, "th")];
        let teens = [(11, "th"), (12, "th"), (13, "th"), (17, "th")];
        let more = [(21, "st"), (102, "nd"), (111, "th"), (193, "rd")];
        for (number, end) in ends.into_iter().chain(teens).chain(more) {
            assert_eq!(ordinal(number), format!("{number}{end}"));
        }
    }
}
