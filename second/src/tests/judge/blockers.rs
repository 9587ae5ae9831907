//! The first entry in a step's way: states and runs by hand, and states that runs lead to.

use crate::judge::case::{Case, Instruction, Step};
use crate::judge::machine::blocker::Blocker;
use crate::judge::machine::effects::advance;
use crate::judge::machine::judge::{judge, judge_bytes, single_step, LEGAL};
use crate::judge::machine::rules::{ISSUE, MOVE};
use crate::judge::machine::state::{Entry, Held, State, QUEUE_ROOM};
use crate::judge::machine::steps::{all_steps, issue, persist, shift};
use crate::judge::writing::encode;
use crate::streams::cases::generate::valid::ROW;
use crate::streams::layouts::Layout;
use crate::streams::machine::generate::runs::runs_for_tests;
use crate::streams::random::Random;
use crate::tests::by_hand::*;

/// The number, and the blocker where one is named.
fn told(case: &Case, state: &State, step: &Step) -> String {
    let verdict = single_step(case, state.clone(), step);
    let blocker = verdict.blocker.map(|blocker| blocker.to_string());
    format!("{} {}", verdict.number, blocker.unwrap_or_default())
}

#[test]
fn places_as_text() {
    assert_eq!(Blocker::waiting(0, 2).to_string(), "B0.2");
    assert_eq!(Blocker::waiting(3, 6).to_string(), "B3.6");
    assert_eq!(Blocker::queued(1, 0).to_string(), "Q1.0");
    assert_eq!(Blocker::queued(15, 63).to_string(), "Q15.63");
}

/// Four threads with that next instruction each behind a load, sixteen locations on a line each, nothing else.
fn four(next: Instruction) -> (Case, State) {
    let case = laid_out(&Layout::own(16), &[&[load(X, 0), next][..]; 4]);
    let mut state = State::start(&case);
    state.issued = [1; 4];
    (case, state)
}

#[test]
fn a_fence_waits_for_its_own_buffers_oldest() {
    // x holds 0, as all registers do, and y holds 5.
    let compares = [compare(X, 0, 7), compare(Y, 0, 7)];
    for fence in [MFENCE, exchange(Y, 0, 7), compares[0], compares[1]] {
        let (mut case, mut state) = four(fence);
        (case.first[1], state.words[1]) = (5, 5);
        state.buffers[0].push(Entry::Flush(X));
        for entry in [Entry::FlushOpt(X), Entry::Sfence, Entry::Flush(Y)] {
            state.buffers[2].push(entry);
        }
        // 22 before 23.
        state.queues[0].push(Held::marker(2));
        assert_eq!(told(&case, &state, &issue(0)), "22 B0.0");
        assert_eq!(told(&case, &state, &issue(1)), "103 ");
        assert_eq!(told(&case, &state, &issue(2)), "22 B2.0");
    }
}

/// What both sorts of fence and the sfence of that thread are told of queues that hold this.
fn behind_markers(thread: u8, queues: &[(usize, &[Held])]) -> String {
    let fill = |state: &mut State| {
        for &(line, held) in queues {
            held.iter().for_each(|&one| state.queues[line].push(one));
        }
    };
    let place = |fence: Instruction, rule: &str| {
        let (case, mut state) = four(fence);
        fill(&mut state);
        let told = told(&case, &state, &issue(thread));
        told.strip_prefix(rule).map(str::to_string)
    };
    let (case, mut state) = four(MFENCE);
    fill(&mut state);
    state.buffers[usize::from(thread)].push(Entry::Sfence);
    let moved = told(&case, &state, &shift(thread, 0));
    let moved = moved.strip_prefix("28 ").map(str::to_string);
    assert_eq!(place(MFENCE, "23 "), moved);
    assert_eq!(place(exchange(Y, 0, 7), "23 "), moved);
    // Writes in these queues are 9; location 5 has none.
    assert_eq!(place(compare(3, 0, 7), "23 "), moved);
    assert_eq!(place(compare(5, 0, 7), "23 "), moved);
    moved.unwrap_or_default()
}

#[test]
fn markers_by_queue_and_then_by_position() {
    let [own, other] = [Held::marker(1), Held::marker(2)];
    let write = Held::write(3, 9);
    assert_eq!(behind_markers(1, &[(3, &[own])]), "Q3.0");
    assert_eq!(behind_markers(1, &[(3, &[write, other, own, own])]), "Q3.2");
    let three: [(usize, &[Held]); 3] = [
        (7, &[own, own]),
        (3, &[write, write, write, own]),
        (0, &[other, other]),
    ];
    assert_eq!(behind_markers(1, &three), "Q3.3");
    assert_eq!(behind_markers(2, &three), "Q0.0");
    // Of nobody else, and of no write.
    assert_eq!(behind_markers(0, &three), "");
    assert_eq!(behind_markers(3, &three), "");
}

/// One marker at each place that a queue has while the four threads and an sfence need theirs.
#[test]
fn a_marker_at_every_place() {
    let most = QUEUE_ROOM - 5;
    for (line, position) in (0..16).flat_map(|line| (0..most).map(move |at| (line, at))) {
        for length in [position + 1, most] {
            let mut held = vec![Held::write(line as u8, 9); length];
            held[position] = Held::marker(3);
            let right = format!("Q{line}.{position}");
            assert_eq!(behind_markers(3, &[(line, &held)]), right);
        }
    }
}

/// Every buffer of four entries, every flush-opt behind the first: of the entries before it the first one
/// that would bar it if it stood there alone.
#[test]
fn a_flush_opt_stays_behind_the_first_that_bars_it() {
    let lines = Layout::told(&[0, 1, 0]);
    let case = laid_out(&lines, &[&[], &[]]);
    let store = |location| Entry::Store { location, word: 7 };
    let kinds = [store(X), store(Y), Entry::Flush(Y), Entry::Flush(Z)];
    let kinds = [
        &kinds[..],
        &[Entry::FlushOpt(X), Entry::FlushOpt(Y), Entry::Sfence],
    ]
    .concat();
    let waiting = |entries: &[Entry]| {
        let mut state = State::start(&case);
        entries.iter().for_each(|&one| state.buffers[1].push(one));
        let position = entries.len() - 1;
        told(&case, &state, &shift(1, position as u8))
    };
    let mut seen = [0; 4];
    for all in 0..kinds.len().pow(3) {
        let before = [0, 1, 2].map(|at| kinds[all / kinds.len().pow(at) % kinds.len()]);
        for moved in [X, Y].map(Entry::FlushOpt) {
            let alone = |&entry: &Entry| waiting(&[entry, moved]) == "26 B1.0";
            let first = before.iter().position(alone);
            let right = first.map_or("103 ".to_string(), |at| format!("26 B1.{at}"));
            assert_eq!(waiting(&[&before[..], &[moved]].concat()), right);
            seen[first.unwrap_or(3)] += 1;
        }
    }
    assert!(seen.iter().all(|&count| count > 40), "{seen:?}");
}

#[test]
fn a_flush_waits_for_its_lines_oldest() {
    // y and z share line 1.
    let case = laid_out(&Layout::told(&[0, 1, 1]), &[&[], &[]]);
    let mut state = State::start(&case);
    for entry in [Entry::Flush(Z), Entry::Flush(Z)] {
        state.buffers[1].push(entry);
    }
    assert_eq!(told(&case, &state, &shift(1, 0)), "103 ");
    state.queues[0].push(Held::write(X, 1));
    assert_eq!(told(&case, &state, &shift(1, 0)), "103 ");
    state.queues[1].push(Held::write(Y, 1));
    state.queues[1].push(Held::marker(0));
    assert_eq!(told(&case, &state, &shift(1, 0)), "27 Q1.0");
    let state = single_step(&case, state, &persist(1)).state;
    assert_eq!(told(&case, &state, &shift(1, 0)), "27 Q1.0");
    // 25 comes first, and names none.
    assert_eq!(told(&case, &state, &shift(1, 1)), "25 ");
}

#[test]
fn other_numbers_name_none() {
    let case = program(&[&[store(X, 1), flush_opt(X)], &[]]);
    let mut state = State::start(&case);
    assert_eq!(told(&case, &state, &issue(0)), "103 ");
    assert_eq!(told(&case, &state, &issue(1)), "21 ");
    assert_eq!(told(&case, &state, &shift(0, 0)), "24 ");
    assert_eq!(told(&case, &state, &persist(0)), "29 ");
    assert_eq!(told(&case, &state, &issue(2)), "5 ");
    let unused = Step {
        position: 1,
        ..issue(0)
    };
    assert_eq!(told(&case, &state, &unused), "8 ");
    for entry in [Entry::Sfence, Entry::Sfence] {
        state.buffers[0].push(entry);
    }
    assert_eq!(told(&case, &state, &shift(0, 1)), "25 ");
    state.issued[1] = 1;
    assert_eq!(told(&case, &state, &shift(0, 1)), "33 ");
    let mut unreadable = case.clone();
    unreadable.locations = 17;
    assert_eq!(told(&unreadable, &state, &shift(0, 1)), "32 ");
    assert_eq!(judge(&unreadable).blocker, None);
    assert_eq!(judge_bytes(&ROW[..45]).blocker, None);
    assert_eq!(judge_bytes(&ROW).blocker, None);
}

/// The run's verdict has what its illegal step has, whatever stands behind it.
#[test]
fn runs_pass_it_on() {
    let case = program(&[&[flush_opt(Y), flush_opt(X), SFENCE]]);
    let steps = [[issue(0); 3], [shift(0, 0); 3], [issue(0); 3]].concat();
    let run = |length: usize| {
        let mut case = case.clone();
        case.set_run(&steps[..length]);
        case
    };
    for length in [6, 9] {
        for verdict in [judge(&run(length)), judge_bytes(&encode(&run(length)))] {
            assert_eq!((verdict.number, verdict.place), (28, 5));
            assert_eq!(verdict.blocker, Some(Blocker::queued(0, 0)));
        }
    }
    let verdict = judge(&run(5));
    assert_eq!((verdict.number, verdict.blocker), (LEGAL, None));
}

/// All that is in the way of a step, by the words of the rule and not by the judge's order.
fn in_the_way(case: &Case, state: &State, step: &Step, rule: u8) -> Vec<Blocker> {
    let thread = usize::from(step.thread);
    let waiting = state.buffers[thread].used();
    let mut found = Vec::new();
    for (position, &entry) in waiting.iter().enumerate() {
        let line = |entry: Entry| entry.location().map(|at| case.line_of(at));
        let is_bar = |moved: &Entry| match entry {
            Entry::FlushOpt(_) => false,
            _ => line(entry).is_none() || line(entry) == line(*moved),
        };
        let passed = position < usize::from(step.position);
        let moved = waiting.get(usize::from(step.position));
        if rule == 22 || rule == 26 && passed && moved.map_or(false, is_bar) {
            found.push(Blocker::waiting(thread, position));
        }
    }
    for (line, queue) in state.queues.iter().enumerate() {
        let own = waiting.first().and_then(|entry| entry.location());
        let own = own.map(|at| case.line_of(at));
        for (position, held) in queue.used().iter().enumerate() {
            let is_own = held.mark == 128 + step.thread;
            if (rule == 23 || rule == 28) && is_own || rule == 27 && own == Some(line) {
                found.push(Blocker::queued(line, position));
            }
        }
    }
    found
}

/// Every step in range in every state of many runs.
#[test]
fn of_all_that_is_in_the_way_the_first() {
    let mut named = [0; 30];
    for (case, steps) in runs_for_tests(&mut Random::new(23), 700) {
        let mut state = State::start(&case);
        for step in steps {
            for other in all_steps(&case) {
                let verdict = single_step(&case, state.clone(), &other);
                let rule = verdict.number;
                let all = in_the_way(&case, &state, &other, rule);
                let first = all.iter().min_by_key(|one| (one.which, one.position));
                assert_eq!(verdict.blocker, first.copied());
                assert!(matches!(other.code, ISSUE | MOVE) || first.is_none());
                if rule != LEGAL {
                    named[usize::from(rule)] += all.len();
                }
            }
            advance(&case, &mut state, &step);
        }
    }
    for rule in 21..=29 {
        let names = [22, 23, 26, 27, 28].contains(&rule);
        assert_eq!(named[rule] > 300, names, "{rule}: {}", named[rule]);
    }
}
