//! The frames of one case: telling budgets, rooms, and steps in the input.

use crate::judge::ask::{search, End, RECORD};
use crate::judge::case::{Case, Step, MOST_STEPS};
use crate::judge::machine::work::full_length;
use crate::judge::reading::read;
use crate::judge::writing::encode;
use crate::streams::machine::generate::runs::{any_step, walk};
use crate::streams::question::frame::Query;
use crate::streams::random::Random;
use crate::streams::sizes::THREADS;
use crate::streams::wire::MOST_ROOM;

/// The frames of a case, if its walk is decided within so many runs, both ends included.
pub fn decided_within(
    random: &mut Random,
    case: &Case,
    least: u32,
    most: u32,
) -> Option<Vec<Query>> {
    let found = search(case, most);
    let run = match found.end {
        End::Undecided => return None,
        End::Reached(run) => Some(run),
        End::Unreachable => None,
    };
    let decided = Decided {
        runs: found.runs,
        run,
    };
    (found.runs >= least).then(|| frames(random, case, &decided))
}

/// What the generator knows of a case beforehand.
struct Decided {
    /// The least budget that decides.
    runs: u32,
    run: Option<Vec<Step>>,
}

fn frames(random: &mut Random, case: &Case, decided: &Decided) -> Vec<Query> {
    let runs = decided.runs;
    let some = runs + random.below(1000) as u32;
    let larger = random.pick(&[some, 2 * runs, 1 << 31, u32::MAX - 1]);
    let mut budgets = vec![0, 1, runs - 1, runs, runs + 1, larger, u32::MAX];
    budgets.sort_unstable();
    budgets.dedup();
    let mut asker = Asker::new(case);
    for budget in budgets {
        let room = asker.any_room(random);
        asker.ask(room, budget);
    }
    asker.ask(asker.need, runs);
    asker.ask_again(random, decided.run.as_deref());
    let behind = asker.need + 1 + random.below(40) as u32;
    let budget = random.pick(&[runs, runs - 1]);
    asker.ask(behind, budget);
    asker.ask_again(random, decided.run.as_deref());
    asker.ask_short(random, decided);
    asker.queries
}

/// The frames of a case that no budget up to the greatest one decides.
pub fn undecided(random: &mut Random, case: &Case, most: u32) -> Vec<Query> {
    let mut asker = Asker::new(case);
    for budget in [
        0,
        1,
        MOST_STEPS as u32 + 1,
        random.below(most as usize) as u32,
        most,
    ] {
        let room = asker.any_room(random);
        asker.ask(room, budget);
    }
    asker.ask_again(random, None);
    asker.queries
}

/// Frames of the case's file with a fault in it, in buffers that would be too short and others.
pub fn refused(random: &mut Random, case: &Case) -> Vec<Query> {
    let mut asker = Asker::new(case);
    let file = asker.file.clone();
    while asker.file == file || read(&asker.file).number == 0 {
        asker.file = file.clone();
        spoil(random, &mut asker.file);
    }
    let short = asker.need.saturating_sub(1);
    for room in [0, short, asker.need, MOST_ROOM] {
        let budget = random.pick(&[0, 1, 100, u32::MAX]);
        asker.ask(room, budget);
    }
    asker.queries
}

/// A bad step or a piece of a record behind the file, a bit changed, or the end lost.
fn spoil(random: &mut Random, file: &mut Vec<u8>) {
    let bad: [&[u8]; 5] = [
        &[4, 0, 6, 0, 0, 3, 0, 0],
        &[4, 0, 6, 0, THREADS, 0, 0, 0],
        &[4, 0, 6, 0, 0, 0, 0, 1],
        &[4, 0, 6, 0, 0, 1],
        &[4],
    ];
    match random.below(4) {
        0 => file.truncate(random.below(file.len())),
        1 => {
            let at = random.below(file.len());
            file[at] ^= 1 << random.below(8);
        }
        _ => file.extend_from_slice(bad[random.below(bad.len())]),
    }
}

/// Asks about one case.
pub struct Asker<'a> {
    case: &'a Case,
    file: Vec<u8>,
    /// The least room that is enough.
    pub need: u32,
    pub queries: Vec<Query>,
}

impl Asker<'_> {
    pub fn new(case: &Case) -> Asker<'_> {
        Asker {
            case,
            file: encode(case),
            need: RECORD as u32 * full_length(case).unwrap_or(0),
            queries: Vec::new(),
        }
    }

    pub fn ask(&mut self, room: u32, budget: u32) {
        self.queries.push(Query {
            input: self.file.clone(),
            room,
            budget,
        });
    }

    /// Enough, with or without bytes behind.
    pub fn any_room(&self, random: &mut Random) -> u32 {
        let more = self.need + 1 + random.below(40) as u32;
        let most = if random.one_in(20) { MOST_ROOM } else { more };
        random.pick(&[self.need, more, most])
    }

    /// The last frame again, with other steps in its input: the run itself, a legal one, any, any whose moves
    /// are of the oldest entry.
    pub fn ask_again(&mut self, random: &mut Random, run: Option<&[Step]>) {
        let last = match self.queries.last() {
            Some(last) => (last.room, last.budget),
            None => return,
        };
        let length = random.below(MOST_STEPS) + 1;
        let length = random.pick(&[1, length, MOST_STEPS]);
        let (legal, _) = walk(random, self.case, length);
        let any: Vec<Step> = (0..length).map(|_| any_step(random, self.case)).collect();
        let oldest = |&step: &Step| Step {
            position: 0,
            ..step
        };
        let oldest: Vec<Step> = any.iter().map(oldest).collect();
        let steps = match random.below(4) {
            0 => run.unwrap_or(&legal),
            1 => &legal,
            2 => &any,
            _ => &oldest,
        };
        let mut with_steps = self.case.clone();
        with_steps.set_run(steps);
        let bare = std::mem::replace(&mut self.file, encode(&with_steps));
        self.ask(last.0, last.1);
        self.file = bare;
    }

    /// One byte short, none, anything short, and short though the run would have room.
    fn ask_short(&mut self, random: &mut Random, decided: &Decided) {
        if self.need == 0 {
            return;
        }
        let any = random.below(self.need as usize) as u32;
        let shown = decided.run.as_ref().map_or(0, |run| RECORD * run.len()) as u32;
        let between = shown + (self.need - shown) / 2;
        let mut rooms = vec![0, any, self.need - 1];
        if between < self.need {
            rooms.push(between);
        }
        for room in rooms {
            let budget = random.pick(&[0, 1, decided.runs, decided.runs, u32::MAX]);
            self.ask(room, budget);
        }
        self.ask_again(random, decided.run.as_deref());
    }
}
