//! Sorts of cases, and the least number of each in 2,000.

use super::sight::Sight;
use super::statements::steps;
use crate::judge::ask::{REACHED, UNDECIDED, UNREACHABLE};
use crate::judge::case::{MOST_LOCATIONS, MOST_STEPS, MOST_THREADS};
use crate::judge::machine::judge::LEGAL;
use crate::judge::machine::rules::{COMPARE, ISSUE, MOVE, PERSIST};
use crate::streams::sizes::{INSTRUCTIONS, LOCATIONS};
use crate::streams::tally::{sort, Sort};

pub const SORTS: [Sort<fn(&Sight) -> bool>; 50] = [
    sort("store word", 500, |s| has(s, 1)),
    sort("store register", 500, |s| has(s, 2)),
    sort("load", 500, |s| has(s, 3)),
    sort("exchange", 500, |s| has(s, 4)),
    sort("flush", 500, |s| has(s, 5)),
    sort("flush-opt", 500, |s| has(s, 6)),
    sort("sfence", 500, |s| has(s, 7)),
    sort("mfence", 500, |s| has(s, 8)),
    sort("compare", 500, |s| has(s, COMPARE)),
    sort("every operation", 100, |s| (1..=9).all(|one| has(s, one))),
    sort("1 thread", 100, |s| s.case.threads == 1),
    sort("2 threads", 100, |s| s.case.threads == 2),
    sort("3 threads", 100, |s| s.case.threads == 3),
    sort("4 threads", 100, |s| s.case.threads == 4),
    sort("1 location", 100, |s| s.case.locations == 1),
    sort("the most locations", 100, |s| s.case.locations == LOCATIONS),
    sort("a thread full", 200, |s| {
        s.case.counts.contains(&INSTRUCTIONS)
    }),
    sort("all threads full", 20, |s| {
        s.case.counts == [INSTRUCTIONS; MOST_THREADS]
    }),
    sort("a thread without instructions", 200, |s| {
        s.case.counts[..s.case.threads.into()].contains(&0)
    }),
    sort("no instructions", 20, |s| {
        s.case.counts == [0; MOST_THREADS]
    }),
    sort("a first content", 500, |s| firsts(s) > 0),
    sort("no first contents", 200, |s| firsts(s) == 0),
    sort("all first contents", 20, |s| firsts(s) == MOST_LOCATIONS),
    sort("a want", 500, |s| wants(s) > 0),
    sort("a want of 0", 200, |s| wants_word(s, 0)),
    sort("a want of 4,294,967,295", 50, |s| wants_word(s, u32::MAX)),
    sort("all wants", 20, |s| wants(s) == MOST_LOCATIONS),
    sort("a passed count", 500, |s| passed(s) > 0),
    sort("passed, the whole thread", 100, whole_thread_passed),
    sort("all passed counts", 20, |s| passed(s) == MOST_THREADS),
    sort("nothing asked", 100, |s| wants(s) + passed(s) == 0),
    sort("question reached", 200, |s| s.asked == REACHED),
    sort("question unreachable", 100, |s| s.asked == UNREACHABLE),
    sort("question undecided", 100, |s| s.asked == UNDECIDED),
    sort("a run", 500, |s| s.case.count > 0),
    sort("no run", 1000, |s| s.case.count == 0),
    sort("the most steps", 10, |s| {
        usize::from(s.case.count) == MOST_STEPS
    }),
    sort("an issue", 400, |s| steps_of(s, ISSUE)),
    sort("a move", 400, |s| steps_of(s, MOVE)),
    sort("a persist", 400, |s| steps_of(s, PERSIST)),
    sort("legal run", 200, |s| s.case.count > 0 && s.judged == LEGAL),
    sort("rule 21", 10, |s| s.judged == 21),
    sort("rule 22", 10, |s| s.judged == 22),
    sort("rule 23", 10, |s| s.judged == 23),
    sort("rule 24", 10, |s| s.judged == 24),
    sort("rule 25", 10, |s| s.judged == 25),
    sort("rule 26", 10, |s| s.judged == 26),
    sort("rule 27", 10, |s| s.judged == 27),
    sort("rule 28", 10, |s| s.judged == 28),
    sort("rule 29", 10, |s| s.judged == 29),
];

fn has(s: &Sight, operation: u8) -> bool {
    s.case.code.iter().any(|one| one.operation == operation)
}

fn firsts(s: &Sight) -> usize {
    s.case.first.iter().filter(|&&word| word != 0).count()
}

fn wants(s: &Sight) -> usize {
    s.case.wanted.iter().filter(|&&wanted| wanted).count()
}

fn passed(s: &Sight) -> usize {
    s.case.passed.iter().filter(|&&least| least != 0).count()
}

fn wants_word(s: &Sight, word: u32) -> bool {
    let mut pairs = s.case.wanted.iter().zip(&s.case.want);
    pairs.any(|(&wanted, &want)| wanted && want == word)
}

fn whole_thread_passed(s: &Sight) -> bool {
    let mut pairs = s.case.passed.iter().zip(&s.case.counts);
    pairs.any(|(least, count)| *least > 0 && least == count)
}

fn steps_of(s: &Sight, code: u8) -> bool {
    steps(&s.case).iter().any(|step| step.code == code)
}
