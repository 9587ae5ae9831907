//! The walk that remembers against plain searches with a hash set, over the distinct states of the twenty.

use crate::agree;
use crate::case::Case;
use crate::flat::{Bytes, Numbers};
use crate::library::{self, Remembering, BEFORE, NOW, STATE_WORDS};
use crate::measure::{self, ROUNDS};
use crate::memory::Fast;
use crate::print;
use crate::rows::Vectors;
use crate::walk::{self, Answer, UNDECIDED};
use crate::{table, twenty};
use std::cell::RefCell;
use std::hash::RandomState;

/// A case of more states than so many is timed in fewer rounds.
const MANY: u32 = 1_000_000;
const FEW_ROUNDS: usize = 3;

/// Reading the file counts for little where there are more states than so many.
const LONG: u32 = 1_000;

/// Each plain state with Rust's own hasher, then with the fast one.
const PLAIN: [fn(&Case, u32) -> Answer; 6] = [
    walk::remember::<Vectors, RandomState>,
    walk::remember::<Vectors, Fast>,
    walk::remember::<Numbers, RandomState>,
    walk::remember::<Numbers, Fast>,
    walk::remember::<Bytes, RandomState>,
    walk::remember::<Bytes, Fast>,
];
const NUMBERS_FAST: usize = 3;

const COLUMNS: [&str; 15] = [
    "states",
    "library",
    "anew",
    "vectors",
    "fast",
    "numbers",
    "fast",
    "bytes",
    "fast",
    "/default",
    "/fast",
    "/numbers",
    "anew/fast",
    "before",
    "/before",
];

/// Without the columns of an earlier build that has no such walk.
fn shown() -> usize {
    if BEFORE.remembering.is_some() {
        COLUMNS.len()
    } else {
        COLUMNS.len() - 2
    }
}

/// Nanoseconds a state.
struct Times {
    library: f64,
    before: f64,
    /// The library's with memory that the system has yet to give, as the plain searches have theirs.
    anew: f64,
    plain: [f64; 6],
}

impl Times {
    /// Those of the fastest plain searches with Rust's own hasher and with the fast one.
    fn fastest(&self) -> [f64; 2] {
        [0, 1].map(|hasher| self.plain.iter().skip(hasher).step_by(2).copied().fold(f64::INFINITY, f64::min))
    }

    fn ratios(&self) -> [f64; 2] {
        self.fastest().map(|plain| self.library / plain)
    }

    fn cells(&self, states: u32) -> Vec<String> {
        let time = |time: f64| format!("{:.0}", time);
        let ratio = |ratio: f64| format!("{:.2}", ratio);
        let mut cells = vec![states.to_string()];
        cells.extend([self.library, self.anew].map(time));
        cells.extend(self.plain.map(time));
        cells.extend(self.ratios().map(ratio));
        cells.extend([self.library / self.plain[NUMBERS_FAST], self.anew / self.fastest()[1]].map(ratio));
        cells.extend([time(self.before), ratio(self.library / self.before)]);
        cells.truncate(shown());
        cells
    }
}

/// Of the cases that have at most so many distinct states.
pub fn table(most: u32) -> Result<(), String> {
    let now = NOW.remembering.as_ref().ok_or("the library has no walk that remembers")?;
    for case in table::cases() {
        agreed(&case, case.budget.min(most))?;
    }
    let mut cases = Vec::new();
    for case in twenty::cases() {
        match agreed(&case, most)? {
            Answer { number: UNDECIDED, .. } => println!("bench: left out, for its states: {}", case.name),
            answer => cases.push((case, answer.visited)),
        }
    }
    println!(
        "bench: all sides agree on {} questions and {} of the twenty; nanoseconds a state",
        table::cases().len(),
        cases.len()
    );
    cases.sort_by_key(|(_, states)| *states);
    timed(now, &cases);
    Ok(())
}

fn agreed(case: &Case, budget: u32) -> Result<Answer, String> {
    let small = case.with_small_words();
    let [others @ .., answer] = PLAIN.map(|search| search(&small, budget));
    agree::all_remember(case, &others, &answer, budget)
        .map_err(|difference| format!("{}: {}", case.name, difference))?;
    Ok(answer)
}

fn timed(now: &Remembering, cases: &[(Case, u32)]) {
    print::head(&COLUMNS[..shown()]);
    let (mut worst, mut worst_long): ([f64; 2], [f64; 2]) = ([0.0; 2], [0.0; 2]);
    for (case, states) in cases {
        let times = times(now, case, *states);
        print::row(case.name, &times.cells(*states));
        for (hasher, ratio) in times.ratios().into_iter().enumerate() {
            worst[hasher] = worst[hasher].max(ratio);
            if *states > LONG {
                worst_long[hasher] = worst_long[hasher].max(ratio);
            }
        }
    }
    println!(
        "bench: at most {:.2} times the fastest plain search, with the fast hasher {:.2}",
        worst[0], worst[1]
    );
    println!("bench: of more than {} states {:.2} and {:.2}", LONG, worst_long[0], worst_long[1]);
}

/// The memory is lent for exactly so many states, and was touched before but for `anew`.
fn times(now: &Remembering, case: &Case, states: u32) -> Times {
    let (file, small) = (case.bytes(), &case.with_small_words());
    let words = STATE_WORDS * states as usize;
    let lent = RefCell::new((vec![0; library::room(case.full_length())], vec![1; words]));
    let remember = |build: &Remembering| {
        let (steps, memory) = &mut *lent.borrow_mut();
        build.remember(&file, steps, memory, states)
    };
    let (mut library, mut before) = (|| remember(now), || BEFORE.remembering.as_ref().map_or(1, remember));
    let mut anew = || now.remember(&file, &mut lent.borrow_mut().0, &mut vec![0; words], states);
    let [vectors, vectors_fast, numbers, numbers_fast, bytes, bytes_fast] =
        &mut PLAIN.map(|search| move || search(small, states).visited);
    let rounds = if states > MANY { FEW_ROUNDS } else { ROUNDS };
    let sides: [&mut dyn FnMut() -> u32; 9] = [
        &mut library,
        &mut before,
        &mut anew,
        vectors,
        vectors_fast,
        numbers,
        numbers_fast,
        bytes,
        bytes_fast,
    ];
    let [library, before, anew, plain @ ..] = measure::in_turn(rounds, states, sides);
    Times { library, before, anew, plain }
}
