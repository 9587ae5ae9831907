//! The walk's order: counted by hand, and against all runs that the judge lets pass.

use crate::judge::ask::{search, End};
use crate::judge::case::{Case, Step};
use crate::judge::fields::check_step;
use crate::judge::machine::judge::{judge, LEGAL};
use crate::judge::machine::state::State;
use crate::judge::machine::steps::printed;
use crate::judge::machine::work::full_length;
use crate::judge::walk::Walk;
use crate::streams::machine::generate::programs::{self, EVERY};
use crate::streams::random::Random;
use crate::tests::by_hand::{flush_opt, load, program, store, X, Y};

fn walked(case: &Case) -> Vec<Vec<Step>> {
    let mut walk = Walk::new(case);
    let mut runs = vec![walk.run()];
    while walk.go_on() {
        runs.push(walk.run());
    }
    runs
}

pub fn check_order(case: &Case, runs: &[&str]) {
    let walked: Vec<String> = walked(case).iter().map(|run| printed(run)).collect();
    assert_eq!(walked, runs);
}

#[test]
fn a_store_and_another_threads_load() {
    let case = program(&[&[store(Y, 1)], &[load(X, 0)]]);
    check_order(
        &case,
        &[
            "",
            "I0",
            "I0 I1",
            "I0 I1 M0.0",
            "I0 I1 M0.0 P1",
            "I0 M0.0",
            "I0 M0.0 I1",
            "I0 M0.0 I1 P1",
            "I0 M0.0 P1",
            "I0 M0.0 P1 I1",
            "I1",
            "I1 I0",
            "I1 I0 M0.0",
            "I1 I0 M0.0 P1",
        ],
    );
}

#[test]
fn a_flush_opt_that_may_pass_a_store() {
    let case = program(&[&[store(Y, 1), flush_opt(X)]]);
    let front = [
        "",
        "I0",
        "I0 I0",
        "I0 I0 M0.0",
        "I0 I0 M0.0 M0.0",
        "I0 I0 M0.0 M0.0 P0",
        "I0 I0 M0.0 M0.0 P0 P1",
        "I0 I0 M0.0 M0.0 P1",
        "I0 I0 M0.0 M0.0 P1 P0",
        "I0 I0 M0.0 P1",
        "I0 I0 M0.0 P1 M0.0",
        "I0 I0 M0.0 P1 M0.0 P0",
        "I0 I0 M0.1",
        "I0 I0 M0.1 M0.0",
        "I0 I0 M0.1 M0.0 P0",
        "I0 I0 M0.1 M0.0 P0 P1",
        "I0 I0 M0.1 M0.0 P1",
        "I0 I0 M0.1 M0.0 P1 P0",
        "I0 I0 M0.1 P0",
        "I0 I0 M0.1 P0 M0.0",
        "I0 I0 M0.1 P0 M0.0 P1",
    ];
    let back = [
        "I0 M0.0",
        "I0 M0.0 I0",
        "I0 M0.0 I0 M0.0",
        "I0 M0.0 I0 M0.0 P0",
        "I0 M0.0 I0 M0.0 P0 P1",
        "I0 M0.0 I0 M0.0 P1",
        "I0 M0.0 I0 M0.0 P1 P0",
        "I0 M0.0 I0 P1",
        "I0 M0.0 I0 P1 M0.0",
        "I0 M0.0 I0 P1 M0.0 P0",
        "I0 M0.0 P1",
        "I0 M0.0 P1 I0",
        "I0 M0.0 P1 I0 M0.0",
        "I0 M0.0 P1 I0 M0.0 P0",
    ];
    check_order(&case, &[&front[..], &back[..]].concat());
}

/// Every run that the judge lets pass, made step by step from the fields of a record.
fn judged(case: &Case, run: &[Step], runs: &mut Vec<(Vec<Step>, State)>) {
    let mut case_with_run = case.clone();
    case_with_run.set_run(run);
    let verdict = judge(&case_with_run);
    if verdict.number != LEGAL {
        return;
    }
    runs.push((run.to_vec(), verdict.state));
    for fields in 0..3 * 4 * 8 * 8 {
        let step = Step {
            code: (fields / 256) as u8,
            thread: (fields / 64 % 4) as u8,
            position: (fields / 8 % 8) as u8,
            line: (fields % 8) as u8,
        };
        if check_step(case.threads, case.lines, &step).is_ok() {
            judged(case, &[run, &[step]].concat(), runs);
        }
    }
}

/// The place of the first run that reaches the question, from 1.
fn first_reaching(case: &Case, runs: &[(Vec<Step>, State)]) -> Option<usize> {
    let at = runs.iter().position(|(_, state)| {
        let missed = (0..8).any(|at| case.wanted[at] && state.words[at] != case.want[at]);
        !missed && (0..4).all(|thread| case.passed[thread] <= state.issued[thread])
    });
    at.map(|at| at + 1)
}

/// A few instructions of one to three threads, wants and passed counts.
fn small(random: &mut Random) -> Case {
    let sizes: [&[u8]; 6] = [&[4], &[3, 1], &[2, 1], &[1, 2], &[1, 0, 1], &[1, 1, 1]];
    let counts = random.pick(&sizes);
    let locations = random.between(1, 3);
    let mut case = programs::program(random, locations, counts, &EVERY);
    for at in 0..usize::from(locations) {
        case.first[at] = random.pick(&[0, 3]);
        case.wanted[at] = random.one_in(2);
        if case.wanted[at] {
            case.want[at] = random.pick(&[0, 3, case.code[0].word, case.code[8].word]);
        }
    }
    for thread in 0..counts.len() {
        case.passed[thread] = random.between(0, case.counts[thread]);
    }
    case
}

#[test]
fn the_walk_is_what_the_judge_lets_pass() {
    let mut random = Random::new(5);
    let mut ends = [0; 2];
    while ends[0] + ends[1] < 120 {
        let case = small(&mut random);
        if full_length(&case).map_or(true, |full| full > 9) {
            continue;
        }
        let mut runs = Vec::new();
        judged(&case, &[], &mut runs);
        let only: Vec<Vec<Step>> = runs.iter().map(|(run, _)| run.clone()).collect();
        assert_eq!(walked(&case), only);
        let first = first_reaching(&case, &runs);
        let decides = first.unwrap_or(runs.len());
        let last = runs.len();
        for budget in [
            0,
            1,
            decides - 1,
            decides,
            decides + 1,
            last - 1,
            last,
            last + 1,
        ] {
            let found = search(&case, budget as u32);
            assert_eq!(found.runs as usize, budget.min(decides));
            match (found.end, first) {
                (End::Undecided, _) => assert!(budget < decides),
                (End::Reached(run), Some(at)) => assert!(budget >= at && run == runs[at - 1].0),
                (End::Unreachable, None) => assert!(budget >= runs.len()),
                _ => panic!("reached and not reached"),
            }
        }
        ends[usize::from(first.is_none())] += 1;
    }
    assert!(ends[0] > 20 && ends[1] > 20, "{ends:?}");
}
