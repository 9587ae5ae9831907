//! Machines with a fault, each found by the sentences that it breaks and by no others.

use super::{sentences, MOST};
use crate::judge::case::{Case, Instruction, Step, POSITIONS};
use crate::judge::machine::effects::advance;
use crate::judge::machine::judge::{judge, Verdict};
use crate::judge::machine::rules::{check, ISSUE, MOVE, PERSIST};
use crate::judge::machine::state::{Entry, State};
use crate::judge::machine::steps::persist;
use crate::judge::machine::work;
use crate::judge::whole::confirm::{confirm, Found, ANY_THREAD, BEYOND, WEIGHTS, WRITTEN_OUT};
use crate::judge::whole::engine::{Engine, OURS};
use crate::judge::whole::program::Program;
use crate::judge::whole::sentences::*;
use crate::streams::layouts::Layout;
use crate::tests::by_hand::{
    exchange, flush_opt, laid_out, load, program, store, MFENCE, SFENCE, X, Y,
};

fn found(engine: Engine, code: &[&[Instruction]]) -> Found {
    confirm(&engine, &Program::of(&program(code)), MOST)
}

/// Broken are these sentences and no others; of the machine without the fault none is.
pub fn check_broken(engine: Engine, code: &[&[Instruction]], broken: &[&'static str]) {
    let mut broken = broken.to_vec();
    broken.sort_unstable();
    assert_eq!(sentences(&found(engine, code)), broken);
    assert!(sentences(&found(OURS, code)).is_empty());
}

fn next_operation(case: &Case, state: &State, step: &Step) -> Option<u8> {
    let unissued = state.unissued(case, step.thread.into());
    let next = unissued.first().filter(|_| step.code == ISSUE);
    next.map(|next| next.operation)
}

fn next_to_move(state: &State, step: &Step) -> Option<Entry> {
    let waiting = state.buffers[usize::from(step.thread)].used();
    let entry = waiting.get(usize::from(step.position));
    entry.copied().filter(|_| step.code == MOVE)
}

#[test]
fn a_step_that_does_nothing() {
    let engine = Engine {
        advance: |case, state, step| match step.code {
            PERSIST => {}
            _ => advance(case, state, step),
        },
        ..OURS
    };
    // Nothing ever ends, so no thread is the last.
    check_broken(engine, &[&[store(X, 1)]], &[STEP, DEPTH, ANY_THREAD]);
    check_broken(engine, &[&[flush_opt(X)]], &[STEP, DEPTH]);
}

#[test]
fn an_sfence_that_never_leaves() {
    let engine = Engine {
        check: |case, state, step| match next_to_move(state, step) {
            Some(Entry::Sfence) => Err(28.into()),
            _ => check(case, state, step),
        },
        ..OURS
    };
    check_broken(engine, &[&[SFENCE]], &[WEDGED, LENGTH]);
    let behind_store = [store(X, 1), SFENCE];
    check_broken(engine, &[&behind_store], &[WEDGED, LENGTH, WRITTEN_OUT]);
    let text = &found(engine, &[&[SFENCE], &[load(X, 0)]]).faults[0].text;
    let place = "program [0, 0] lines [0, 1] {sfence} {r0 = x0}: behind 'I0 I1': words [0, ";
    assert!(
        text.starts_with(&format!("{WEDGED}: not so of {place}")),
        "{text}"
    );
}

#[test]
fn a_persist_that_drops_a_write() {
    let engine = Engine {
        advance: |case, state, step| {
            let words = state.words;
            advance(case, state, step);
            state.words = words;
        },
        ..OURS
    };
    let lost = [LAST_WRITE, ONE_WRITER, ANY_THREAD];
    check_broken(engine, &[&[store(X, 1)]], &lost);
    check_broken(engine, &[&[exchange(X, 0, 1)]], &lost);
    check_broken(
        engine,
        &[&[store(X, 1)], &[store(X, 2)]],
        &[LAST_WRITE, ANY_THREAD],
    );
}

#[test]
fn a_persist_that_takes_the_newest() {
    let engine = Engine {
        advance: |case, state, step| {
            if step.code == PERSIST {
                let queue = &mut state.queues[usize::from(step.line)];
                let used = usize::from(queue.count);
                queue.places[..used].rotate_right(1);
            }
            advance(case, state, step);
        },
        ..OURS
    };
    let own = [store(X, 1), store(X, 2)];
    check_broken(engine, &[&own], &[LAST_WRITE, ONE_WRITER]);
    check_broken(engine, &[&own, &[store(X, 3)]], &[LAST_WRITE]);
    // Of one store each, any order is as good.
    let apart = found(engine, &[&[store(X, 1)], &[store(X, 2)]]);
    assert!(sentences(&apart).is_empty());
}

#[test]
fn a_write_that_goes_to_its_lines_first_location() {
    let engine = Engine {
        advance: |case, state, step| {
            if step.code == PERSIST {
                let oldest = &mut state.queues[usize::from(step.line)].places[0];
                oldest.mark = oldest.location().map_or(oldest.mark, |_| X);
            }
            advance(case, state, step);
        },
        ..OURS
    };
    let on_one_line = |code: &[Instruction]| {
        let case = laid_out(&Layout::told(&[0, 0]), &[code]);
        sentences(&confirm(&engine, &Program::of(&case), MOST))
    };
    let mut astray = [LAST_WRITE, ONE_WRITER, NO_WRITER, ORIGIN, ANY_THREAD];
    astray.sort_unstable();
    assert_eq!(on_one_line(&[store(Y, 1)]), astray);
    assert!(on_one_line(&[store(X, 1), flush_opt(Y)]).is_empty());
}

#[test]
fn a_load_that_is_free() {
    let engine = Engine {
        advance: |case, state, step| {
            let issued = state.issued;
            let next = next_operation(case, state, step);
            advance(case, state, step);
            if next == Some(3) {
                state.issued = issued;
            }
        },
        ..OURS
    };
    check_broken(engine, &[&[load(X, 0)]], &[STEP, DEPTH]);
    let unweighed = Engine {
        work: |case, state| {
            let threads = 0..usize::from(case.threads);
            let all = threads.flat_map(|thread| state.unissued(case, thread));
            let loads = all.filter(|one| one.operation == 3).count();
            work::sum(case, state) - loads as u32
        },
        ..OURS
    };
    check_broken(unweighed, &[&[load(X, 0)]], &[STEP, WEIGHTS]);
}

#[test]
fn an_entry_that_weighs_one_more() {
    let waiting = Engine {
        work: |case, state| {
            let entries = state.buffers.iter().map(|buffer| u32::from(buffer.count));
            work::sum(case, state) + entries.sum::<u32>()
        },
        ..OURS
    };
    check_broken(waiting, &[&[store(X, 1)]], &[STEP]);
    check_broken(waiting, &[&[SFENCE]], &[STEP]);
    let always = Engine {
        work: |case, state| work::sum(case, state) + 1,
        ..OURS
    };
    check_broken(always, &[&[store(X, 1)]], &[WEIGHTS]);
}

#[test]
fn a_move_that_persists_at_once() {
    let engine = Engine {
        advance: |case, state, step| {
            let entry = next_to_move(state, step);
            advance(case, state, step);
            if let Some(Entry::Store { location, .. }) = entry {
                advance(case, state, &persist(location));
            }
        },
        ..OURS
    };
    check_broken(engine, &[&[store(X, 1)]], &[STEP, LENGTH, WRITTEN_OUT]);
}

/// A move of the last position does that of the first, and the persist too: one state, two lengths.
#[test]
fn a_shorter_way_beside_the_long_one() {
    fn first(step: &Step) -> Step {
        Step {
            position: step.position % (POSITIONS - 1),
            ..*step
        }
    }
    let engine = Engine {
        check: |case, state, step| check(case, state, &first(step)),
        advance: |case, state, step| {
            advance(case, state, &first(step));
            if step.position == POSITIONS - 1 {
                advance(case, state, &persist(X));
            }
        },
        ..OURS
    };
    check_broken(engine, &[&[store(X, 1)]], &[STEP, DEPTH, LENGTH]);
}

#[test]
fn a_step_where_nothing_is_left() {
    let engine = Engine {
        check: |case, state, step| match step.code {
            PERSIST => Ok(()),
            _ => check(case, state, step),
        },
        advance: |case, state, step| {
            if check(case, state, step).is_ok() {
                advance(case, state, step);
            }
        },
        ..OURS
    };
    check_broken(engine, &[&[MFENCE]], &[GOES_ON, STEP, DEPTH]);
}

#[test]
fn a_thread_that_is_always_the_last() {
    let engine = Engine {
        check: |case, state, step| {
            let others = !state.unissued(case, 1).is_empty() || state.buffers[1].count > 0;
            match (step.code, step.thread) {
                (MOVE, 0) if others => Err(25.into()),
                _ => check(case, state, step),
            }
        },
        ..OURS
    };
    let unfair = [ANY_THREAD, WRITTEN_OUT];
    check_broken(engine, &[&[store(X, 1)], &[store(X, 2)]], &unfair);
}

#[test]
fn a_write_where_nobody_writes() {
    let at_the_end = Engine {
        advance: |case, state, step| {
            advance(case, state, step);
            state.words[1] = state.words[0];
        },
        ..OURS
    };
    let unwritten = [LAST_WRITE, NO_WRITER, ORIGIN];
    check_broken(at_the_end, &[&[store(X, 1)]], &unwritten);
    let on_the_way = Engine {
        advance: |case, state, step| {
            advance(case, state, step);
            state.words[1] = u32::from(state.queues[0].count);
        },
        ..OURS
    };
    check_broken(on_the_way, &[&[store(X, 1)]], &[NO_WRITER, ORIGIN]);
}

#[test]
fn a_judge_that_is_wrong() {
    let other_word = Engine {
        judge: |case| Verdict {
            state: State::start(case),
            ..judge(case)
        },
        ..OURS
    };
    let refuses = Engine {
        judge: |case| Verdict {
            number: 25,
            ..judge(case)
        },
        ..OURS
    };
    let stops = Engine {
        judge: |case| Verdict {
            place: 2,
            ..judge(case)
        },
        ..OURS
    };
    for engine in [other_word, refuses, stops] {
        check_broken(engine, &[&[store(X, 1)], &[load(X, 0)]], &[WRITTEN_OUT]);
    }
}

#[test]
fn more_states_than_are_counted() {
    let program = Program::of(&program(&[&[store(X, 1)]]));
    assert_eq!(sentences(&confirm(&OURS, &program, 3)), [BEYOND]);
    assert!(sentences(&confirm(&OURS, &program, 4)).is_empty());
}
