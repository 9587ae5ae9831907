//! Times the proved library's question and judge, in two builds, against plain Rust over the same machine, in one
//! process. All sides must agree on the answers, the steps and the number of runs, else nothing is measured.
//!
//! Without arguments it prints the tables, of the eleven questions, of the twenty and of the judged runs; `remember MOST`
//! that of the walk that remembers, over the twenty of at most so many distinct states, and `largest SIDE BYTES SECONDS`
//! how many states a side gets through. For a counter of instructions `names` lists the questions and the judged
//! runs by number, and `question I` and `judge I` have each build answer the Ith once. A case that the earlier build
//! refuses, as one from before operation 9 does a compare, is left out.

mod agree;
mod case;
mod flat;
mod kept;
mod largest;
mod library;
mod machine;
mod measure;
mod memory;
mod pairs;
mod print;
mod remember;
mod replay;
mod rows;
mod table;
mod twenty;
mod walk;

use case::Case;
use library::BEFORE;
use measure::Times;
use pairs::Pair;
use rows::Arrays;
use walk::Answer;

/// A question of more runs than so many is long: reading its file counts for little.
const LONG: u32 = 1_000;

const QUESTION: [&str; 4] = ["threads", "length", "answer", "runs"];
const JUDGE: [&str; 2] = ["threads", "steps"];
const SIDES: [&str; 8] =
    ["library", "before", "vectors", "arrays", "/before", "/vectors", "/arrays", "/faster"];

/// The program's entry as C's start-up code calls it: a C compiler links this archive with the library's.
#[no_mangle]
pub extern "C" fn main() -> i32 {
    let words: Vec<String> = std::env::args().skip(1).collect();
    let words: Vec<&str> = words.iter().map(String::as_str).collect();
    let done = match words[..] {
        [] => questions(table::cases()).and_then(|()| questions(twenty::cases())).and_then(|()| judged()),
        ["names"] => names(),
        ["remember", most] => number(most).and_then(|most| remember::table(most as u32)),
        ["largest", side, bytes, seconds] => {
            number(bytes).and_then(|bytes| largest::tell(side, bytes, number(seconds)?))
        }
        ["question", which] => ask_once(which),
        ["judge", which] => judge_once(which),
        _ => Err(String::from("no such words")),
    };
    match done {
        Ok(()) => 0,
        Err(difference) => {
            println!("bench: {}", difference);
            1
        }
    }
}

fn questions(asked: Vec<Case>) -> Result<(), String> {
    let mut cases: Vec<(Case, Answer)> = asked.into_iter().filter(in_both).map(answered).collect();
    cases.sort_by_key(|(_, answer)| answer.visited);
    for (case, answer) in &cases {
        agree::all_agree(case, answer).map_err(|difference| format!("{}: {}", case.name, difference))?;
    }
    println!("bench: all sides agree on {} questions; nanoseconds a run of the walk", cases.len());
    print::head(&[&QUESTION[..], &SIDES].concat());
    let (mut worst, mut worst_long): (f64, f64) = (0.0, 0.0);
    for (case, answer) in &cases {
        let times = measure::question_times(case, answer.visited);
        let counts =
            [case.threads.len(), case.full_length(), answer.number as usize, answer.visited as usize];
        print_row(case.name, &counts, &times);
        let ratio = times.library / times.faster();
        worst = worst.max(ratio);
        if answer.visited > LONG {
            worst_long = worst_long.max(ratio);
        }
    }
    println!(
        "bench: at most {:.2} times the faster plain search; of more than {} runs {:.2}",
        worst, LONG, worst_long
    );
    Ok(())
}

fn answered(case: Case) -> (Case, Answer) {
    let answer = walk::question::<Arrays>(&case);
    (case, answer)
}

/// The earlier build is called for it: not where its instructions are counted.
fn in_both(case: &Case) -> bool {
    let refused = BEFORE.refuses(&case.bytes());
    if refused {
        println!("bench: left out, since the earlier build refuses it: {}", case.name);
    }
    !refused
}

fn judged() -> Result<(), String> {
    let pairs: Vec<Pair> = pairs::pairs().into_iter().filter(|pair| in_both(&pair.run)).collect();
    for case in pairs.iter().flat_map(|pair| [&pair.run, &pair.beside]) {
        agree::all_pass(case).map_err(|difference| format!("{}: {}", case.name, difference))?;
    }
    println!("bench: all sides agree on {} judged runs; nanoseconds a step", 2 * pairs.len());
    print::head(&[&JUDGE[..], &SIDES].concat());
    for case in pairs.iter().map(|pair| &pair.run) {
        let times = measure::judge_times(case);
        print_row(case.name, &[case.threads.len(), case.steps.len()], &times);
    }
    Ok(())
}

/// A line for each: its number, and of a question how many runs of the walk decide it, of a judged run how many of its
/// steps count.
fn names() -> Result<(), String> {
    for (which, case) in table::cases().into_iter().enumerate().filter(|(_, case)| in_both(case)) {
        let (case, answer) = answered(case);
        println!("question {} {} {}", which, answer.visited, case.name);
    }
    for (which, pair) in pairs::pairs().iter().enumerate().filter(|(_, pair)| in_both(&pair.run)) {
        println!("judge {} {} {}", 2 * which, pair.counted, pair.run.name);
    }
    Ok(())
}

fn ask_once(which: &str) -> Result<(), String> {
    let (case, answer) = answered(numbered(table::cases(), which)?);
    agree::libraries_say(&case, case.budget, &answer)
}

/// The runs count from 0, each before the one beside it.
fn judge_once(which: &str) -> Result<(), String> {
    let runs = pairs::pairs().into_iter().flat_map(|pair| [pair.run, pair.beside]).collect();
    agree::all_pass(&numbered(runs, which)?)
}

fn numbered<T>(things: Vec<T>, which: &str) -> Result<T, String> {
    things.into_iter().nth(number(which)?).ok_or(format!("there is no number {}", which))
}

fn number(word: &str) -> Result<usize, String> {
    word.parse().map_err(|_| format!("{} is no number", word))
}

fn print_row(name: &str, counts: &[usize], times: &Times) {
    let counts = counts.iter().map(|count| count.to_string());
    let sides = [times.library, times.before, times.vectors, times.arrays].map(|time| format!("{:.0}", time));
    let others = [times.before, times.vectors, times.arrays, times.faster()];
    let ratios = others.map(|time| format!("{:.2}", times.library / time));
    let cells: Vec<String> = counts.chain(sides).chain(ratios).collect();
    print::row(name, &cells);
}
