//! The frames of one case: telling limits, by the budget and by the memory, rooms, and steps in the input.

use crate::judge::ask::{End, Search};
use crate::judge::case::{Case, Step, MOST_STEPS};
use crate::judge::reading::read;
use crate::judge::remember::{recall, STATE_WORDS};
use crate::streams::question::frame::Query;
use crate::streams::question::generate::queries::Asker;
use crate::streams::random::Random;
use crate::streams::remember::frame::Loan;

/// More states than nearly all of the question's cases have that its walk decides.
const MOST_STATES: u32 = 2000;
/// Of a case that so many do not decide: more than the first branch of the walk has, however long it is.
const FEW_STATES: u32 = 2 * MOST_STEPS as u32;

/// The frames of a case that the question's stream has: its own where it is refused, with memory beside.
pub fn asked(random: &mut Random, queries: &[Query]) -> Vec<Loan> {
    let reads = |query: &&Query| read(&query.input).number == 0;
    let mut loans = Vec::new();
    if let Some(query) = queries.iter().find(reads) {
        let mut case = read(&query.input).case;
        case.set_run(&[]);
        loans = of_case(random, &case);
    }
    for query in queries.iter().filter(|query| !reads(query)) {
        loans.push(Loan {
            query: query.clone(),
            words: any_words(random),
        });
    }
    loans
}

pub fn of_case(random: &mut Random, case: &Case) -> Vec<Loan> {
    let found = recall(case, MOST_STATES);
    match found.end {
        End::Undecided => undecided(random, case),
        _ => decided(random, case, &found),
    }
}

/// Where nothing is covered, or nothing asked of it.
fn any_words(random: &mut Random) -> u32 {
    random.pick(&[0, 0, 1, 191, 192, 1000, u32::MAX])
}

/// The frames of a case that is decided by the last of so many states.
pub fn decided(random: &mut Random, case: &Case, found: &Search) -> Vec<Loan> {
    let states = found.runs;
    let run = match &found.end {
        End::Reached(run) => Some(&run[..]),
        _ => None,
    };
    let mut lender = Lender::new(case);
    for covered in [states - 1, states] {
        lender.by_budget(random, covered);
        lender.by_memory(random, covered);
    }
    let more = states + random.below(1000) as u32;
    let covered = random.pick(&[0, 1, states + 1, more, u32::MAX / STATE_WORDS - 1]);
    match random.below(2) {
        0 => lender.by_budget(random, covered),
        _ => lender.by_memory(random, covered),
    }
    let covered = random.pick(&[0, states - 1, states, states + 1]);
    lender.by_both(random, covered);
    lender.ask_again(random, run);
    lender.all_there_is(random);
    lender.ask_short(random, states, run);
    lender.loans()
}

/// The frames of a case that not so few states decide.
fn undecided(random: &mut Random, case: &Case) -> Vec<Loan> {
    let mut lender = Lender::new(case);
    let any = random.below(FEW_STATES as usize) as u32;
    for covered in [0, 1, any, FEW_STATES] {
        match random.below(3) {
            0 => lender.by_budget(random, covered),
            1 => lender.by_memory(random, covered),
            _ => lender.by_both(random, covered),
        }
    }
    lender.ask_again(random, None);
    lender.loans()
}

struct Lender<'a> {
    asker: Asker<'a>,
    /// Of each question that was asked.
    words: Vec<u32>,
}

impl Lender<'_> {
    fn new(case: &Case) -> Lender<'_> {
        Lender {
            asker: Asker::new(case),
            words: Vec::new(),
        }
    }

    fn loans(self) -> Vec<Loan> {
        let asked = self.asker.queries.into_iter().zip(self.words);
        asked.map(|(query, words)| Loan { query, words }).collect()
    }

    fn ask(&mut self, random: &mut Random, budget: u32, words: u32) {
        let room = self.asker.any_room(random);
        self.ask_in(room, budget, words);
    }

    fn ask_in(&mut self, room: u32, budget: u32, words: u32) {
        self.asker.ask(room, budget);
        self.words.push(words);
    }

    /// The memory has room for one state more, or for many.
    fn by_budget(&mut self, random: &mut Random, covered: u32) {
        let many = covered + 2 + random.below(100) as u32;
        let states = random.pick(&[covered + 1, many, u32::MAX]);
        let words = words_for(random, states);
        self.ask(random, covered, words);
    }

    /// The budget has one state more, or many.
    fn by_memory(&mut self, random: &mut Random, covered: u32) {
        let many = covered + 2 + random.below(100) as u32;
        let budget = random.pick(&[covered + 1, many, u32::MAX]);
        let words = words_for(random, covered);
        self.ask(random, budget, words);
    }

    fn by_both(&mut self, random: &mut Random, covered: u32) {
        let words = words_for(random, covered);
        self.ask(random, covered, words);
    }

    fn all_there_is(&mut self, random: &mut Random) {
        self.ask(random, u32::MAX, u32::MAX);
    }

    /// The last frame again, with other steps in its input.
    fn ask_again(&mut self, random: &mut Random, run: Option<&[Step]>) {
        self.asker.ask_again(random, run);
        self.words.extend(self.words.last().copied());
    }

    /// One byte short, and none or anything short, whatever is covered.
    fn ask_short(&mut self, random: &mut Random, states: u32, run: Option<&[Step]>) {
        let need = self.asker.need;
        if need == 0 {
            return;
        }
        let any = random.below(need as usize) as u32;
        for room in [need - 1, random.pick(&[0, any])] {
            let budget = random.pick(&[0, 1, states, u32::MAX]);
            let words = random.pick(&[0, 191, STATE_WORDS * states, u32::MAX]);
            self.ask_in(room, budget, words);
        }
        if random.one_in(4) {
            self.ask_again(random, run);
        }
    }
}

/// Memory for so many states and for no more: no word beside, one short of a state more, or any.
fn words_for(random: &mut Random, states: u32) -> u32 {
    let any = random.below(STATE_WORDS as usize) as u32;
    let beside = random.pick(&[0, 0, STATE_WORDS - 1, STATE_WORDS - 1, any]);
    states.saturating_mul(STATE_WORDS).saturating_add(beside)
}
