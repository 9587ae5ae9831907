//! Frames of the machine: the bytes of a state, their stream and their lines.

use crate::judge::case::{Case, Step};
use crate::judge::machine::blocker::Blocker;
use crate::judge::machine::state::{Entry, Held, State};
use crate::judge::machine::steps::{issue, shift};
use crate::judge::reading::read;
use crate::judge::writing;
use crate::streams::cases::generate::valid::ROW;
use crate::streams::machine::answer::{answer, judged_line};
use crate::streams::machine::counts::TrialCounts;
use crate::streams::machine::frame::{Job, Trial};
use crate::streams::machine::generate::{blocked, rows};
use crate::streams::machine::raw::{decode, encode, ENTRIES, STATE_BYTES};
use crate::streams::machine::spots::{spots, SpotCounts};
use crate::streams::random::Random;
use crate::streams::tally::{amiss, Counts, Row};
use crate::tests::by_hand::{at, compare, flush_opt, load, program, store, X, Y};

#[test]
fn states_come_back_from_their_bytes() {
    let mut random = Random::new(3);
    for _ in 0..50 {
        let bytes = random.bytes(STATE_BYTES);
        let state = decode(&bytes);
        let again = encode(&state);
        assert_eq!(again.len(), STATE_BYTES);
        assert_eq!(decode(&again), state);
        assert_eq!(again[..ENTRIES.start], bytes[..ENTRIES.start]);
        assert_eq!(again[ENTRIES.end..], bytes[ENTRIES.end..]);
    }
}

#[test]
fn each_part_stands_at_its_bytes() {
    let mut state = State::start(&Case::empty());
    state.words[15] = 1;
    state.queues[1].places[2] = Held { word: 2, mark: 3 };
    state.queues[14].count = 4;
    state.buffers[1].places[3] = Entry::Store {
        location: 5,
        word: 6,
    };
    state.buffers[2].places[0] = Entry::FlushOpt(7);
    state.buffers[3].count = 8;
    state.registers[1][2] = 9;
    state.issued[0] = 10;
    let mut bytes = vec![0; STATE_BYTES];
    bytes[60] = 1;
    bytes[64 + 4 * 66] = 2;
    bytes[4160 + 66] = 3;
    bytes[5184 + 14] = 4;
    bytes[5200 + 6 * 19 + 1] = 5;
    bytes[5200 + 6 * 19 + 2] = 6;
    bytes[5200 + 6 * 32] = 2;
    bytes[5200 + 6 * 32 + 1] = 7;
    bytes[5584 + 3] = 8;
    bytes[5588 + 4 * 6] = 9;
    bytes[5652] = 10;
    assert_eq!(STATE_BYTES, 5656);
    assert_eq!(encode(&state), bytes);
    // A kind is taken modulo 4; an sfence has no location and no word, a flush-opt no word.
    let mut other = bytes.clone();
    other[5200 + 6 * 32] = 254;
    other[5200 + 6 * 32 + 5] = 255;
    assert_eq!(decode(&other), state);
    other[5200 + 6 * 32] = 255;
    bytes[5200 + 6 * 32] = 3;
    bytes[5200 + 6 * 32 + 1] = 0;
    assert_eq!(encode(&decode(&other)), bytes);
}

/// Issue, from the start, of the row's first store with another word: field 26.
fn first_issue() -> Trial {
    Trial {
        job: Job::Step(issue(0), vec![0; STATE_BYTES]),
        input: ROW.to_vec(),
        field: 26,
        value: 0x0102_0304,
    }
}

#[test]
fn frames_of_the_machine_come_back_from_their_stream() {
    let trial = first_issue();
    let mut stream = Vec::new();
    assert!(trial.write_to(&mut stream).is_ok());
    assert_eq!(stream.len(), 16 + 50 + 4 + STATE_BYTES);
    let mut rest = &stream[..];
    assert_eq!(Trial::read_from(&mut rest).ok(), Some(Some(trial)));
    assert_eq!(Trial::read_from(&mut rest).ok(), Some(None));
    assert!(Trial::read_from(&mut &stream[..stream.len() - 1]).is_err());
    for job in [3, 5] {
        stream[0] = job;
        assert!(Trial::read_from(&mut &stream[..]).is_err());
    }
    stream[0] = 4;
    stream.truncate(16 + 50);
    let start = Trial {
        job: Job::Start,
        ..first_issue()
    };
    let mut rest = &stream[..];
    assert_eq!(Trial::read_from(&mut rest).ok(), Some(Some(start.clone())));
    assert_eq!(Trial::read_from(&mut rest).ok(), Some(None));
    let mut again = Vec::new();
    assert!(start.write_to(&mut again).is_ok() && again == stream);
}

/// The start of the row's case with a field changed: first contents of its two locations and of one
/// more, and the number of locations.
#[test]
fn lines_of_a_start() {
    let line = |input: &[u8], field, value| {
        let trial = Trial {
            job: Job::Start,
            input: input.to_vec(),
            field,
            value,
        };
        answer(&trial).line()
    };
    let nothing = "00".repeat(STATE_BYTES);
    assert_eq!(line(&ROW, 0, 0), format!("103 0 6 6 {nothing}\n"));
    let word = |at: usize| {
        let mut bytes = nothing.clone();
        bytes.replace_range(8 * at..8 * at + 8, "04030201");
        bytes
    };
    let first = format!("103 0 6 6 {}\n", word(0));
    assert_eq!(line(&ROW, 3, 0x0102_0304), first);
    let second = format!("103 0 6 6 {}\n", word(1));
    assert_eq!(line(&ROW, 4, 0x0102_0304), second);
    let refused = format!("32 0 r32 r32 {nothing}\n");
    assert_eq!(line(&ROW, 5, 0x0102_0304), refused);
    assert_eq!(line(&ROW, 2, 9), refused);
    // A file with a first content, and nine locations: the empty case's start.
    let filled = [&ROW[..8], &[5, 0, 2, 0, 1, 4, 3, 2, 1]].concat();
    let start = format!("103 0 0 0 {}\n", word(1));
    assert_eq!(line(&filled, 0, 0), start);
    assert_eq!(line(&filled, 2, 17), refused);
    // Bytes that do not read: the empty case, of one thread and one location.
    assert_eq!(line(&[7], 0, 0), format!("103 0 0 0 {nothing}\n"));
    let first = format!("103 0 0 0 {}\n", word(0));
    assert_eq!(line(&[7], 3, 0x0102_0304), first);
    assert_eq!(line(&[7], 4, 0x0102_0304), refused);
}

#[test]
fn lines_of_the_machine() {
    let told = answer(&first_issue());
    let mut state = State::start(&read(&ROW).case);
    state.issued[0] = 1;
    state.buffers[0].push(Entry::Store {
        location: 0,
        word: 0x0102_0304,
    });
    assert_eq!(told.verdict.state, state);
    let line = told.line();
    assert!(line.starts_with("103 0 6 6 0000") && line.ends_with("01000000\n"));
    assert_eq!(line.trim_end().len(), "103 0 6 6 ".len() + 2 * STATE_BYTES);
    let judged = |job, field, value| {
        let trial = Trial {
            job,
            field,
            value,
            ..first_issue()
        };
        let line = answer(&trial).line();
        line[..line.rfind(' ').unwrap_or(0)].to_string()
    };
    assert_eq!(judged(Job::Bytes, 1, 0), "103 0 6 6");
    assert_eq!(judged(Job::Case, 1, 0), "32 0 r32 r32");
    let unfit = Job::Step(issue(0), vec![255; STATE_BYTES]);
    assert_eq!(judged(unfit, 0, 0), "33 0 r33 6");
}

/// A store of y, a store of x and a flush-opt of x, which is to move before them, with that many issues.
fn barred(issues: usize) -> Trial {
    let mut case = program(&[&[store(Y, 1), store(X, 500), flush_opt(X)]]);
    case.set_run(&[&vec![issue(0); issues][..], &[shift(0, 2)]].concat());
    Trial {
        job: Job::Bytes,
        input: writing::encode(&case),
        field: 0,
        value: 0,
    }
}

#[test]
fn lines_end_with_the_blocker() {
    let trial = barred(3);
    let told = answer(&trial);
    let state = encode(&told.verdict.state);
    let state: String = state.iter().map(|byte| format!("{byte:02x}")).collect();
    assert_eq!(told.line(), format!("26 3 6 9 {state} B0.1\n"));
    assert_eq!(judged_line(&trial), "26 3 B0.1\n");
    let start = Trial {
        job: Job::Start,
        ..trial.clone()
    };
    assert!(answer(&start).line().ends_with("00\n"));
    assert_eq!(judged_line(&start), "");
    // In the same state, as a single step.
    let stepped = Trial {
        job: Job::Step(shift(0, 2), encode(&told.verdict.state)),
        ..trial
    };
    assert_eq!(answer(&stepped).line(), format!("26 0 6 9 {state} B0.1\n"));
    // Two entries: no third one to move.
    assert_eq!(judged_line(&barred(2)), "24 2\n");
    assert!(answer(&barred(2)).line().ends_with("00\n"));
}

/// What is wrong of the frames, least numbers aside.
fn wrong(trials: &[Trial]) -> Vec<String> {
    let mut counts = TrialCounts::new();
    trials.iter().for_each(|trial| counts.take(trial));
    counts.wrong()
}

#[test]
fn rows_by_hand_are_met() {
    let mut trials = rows::all(&mut Random::new(1));
    assert_eq!((trials.len(), wrong(&trials)), (54, Vec::new()));
    // With another blocker in its mark, or the index of another step, each is found.
    for trial in &mut trials {
        trial.value += 1 << 20;
    }
    assert_eq!(wrong(&trials).len(), 54);
    for trial in &mut trials {
        trial.value -= (1 << 20) - (1 << 8);
    }
    assert_eq!(wrong(&trials).len(), 54);
}

/// What is counted by such names in frames of that run, judged or with its last step alone.
fn counted(case: &Case, steps: &[Step], alone: bool, name: &str) -> Vec<(String, u128)> {
    let mut case = case.clone();
    let (last, before) = steps.split_last().expect("a step");
    case.set_run(if alone { before } else { steps });
    let mut trial = Trial {
        job: Job::Bytes,
        input: writing::encode(&case),
        field: 0,
        value: 0,
    };
    if alone {
        let state = encode(&answer(&trial).verdict.state);
        trial.job = Job::Step(*last, state);
    }
    let mut counts = TrialCounts::new();
    counts.take(&trial);
    assert_eq!(counts.wrong(), [""; 0]);
    let is_such = |row: &Row| row.count > 0 && row.name.contains(name);
    let rows = counts.rows().into_iter().filter(is_such);
    rows.map(|row| (row.name, row.count)).collect()
}

#[test]
fn compares_are_counted_by_their_outcome() {
    let told = |case: &Case, steps: &[Step], name: &str, count: u128| {
        for (alone, whose, count) in [(false, "in runs", count), (true, "single", 1)] {
            let name = format!("{whose}: {name}");
            assert_eq!(counted(case, steps, alone, "compare "), [(name, count)]);
        }
    };
    let twice = [issue(0), issue(1), issue(0), issue(1)];
    let other = [load(X, 0), compare(Y, 0, 8)];
    let succeeds = program(&[&[load(Y, 0), compare(X, 0, 7)], &other]);
    told(&succeeds, &twice, "compare succeeds", 2);
    let mut fails = succeeds.clone();
    fails.first[..2].copy_from_slice(&[5, 6]);
    told(&fails, &twice, "compare fails", 2);
    for (first, end) in [(0, "succeed"), (5, "fail")] {
        let mut waiting = program(&[&[load(Y, 0), store(Y, 1), compare(X, 0, 7)]]);
        waiting.first[0] = first;
        let name = format!("22, compare would {end}");
        told(&waiting, &[issue(0); 3], &name, 1);
        let mut marked = program(&[&[load(Y, 0), flush_opt(Y), compare(X, 0, 7)]]);
        marked.first[0] = first;
        let name = format!("23, compare would {end}");
        let steps = [issue(0), issue(0), shift(0, 0), issue(0)];
        told(&marked, &steps, &name, 1);
    }
}

/// Legal ones alone: behind the two there is none left.
#[test]
fn stores_from_registers_are_counted() {
    let case = program(&[&[load(X, 0), at(2, X, 0), at(2, Y, 0)]]);
    let steps = [issue(0); 4];
    let told = |count: usize, alone: bool| {
        let rows = counted(&case, &steps[..count], alone, "store register");
        let told = rows.iter().map(|(name, count)| format!("{name} {count}"));
        told.collect::<Vec<String>>()
    };
    assert_eq!(told(3, false), ["in runs: store register 2"]);
    assert_eq!(told(4, false), ["in runs: store register 2"]);
    assert_eq!(told(3, true), ["single: store register 1"]);
    assert_eq!(told(4, true), [""; 0]);
}

/// Frames are left out by how their `machine-judged` line begins and ends.
#[test]
fn a_place_that_is_left_out_is_missed() {
    let trials = blocked::all(&mut Random::new(2));
    let missed = |begins: &str, ends: &str| {
        let mut counts = SpotCounts::new();
        let is_kept = |trial: &&Trial| {
            let told = judged_line(trial);
            !told.starts_with(begins) || !told.trim_end().ends_with(ends)
        };
        for trial in trials.iter().filter(is_kept) {
            assert!(counts.take(trial, &answer(trial)));
        }
        amiss(&counts.rows())
    };
    let job = "blockers' places, 8 by job 0: 175, at least 176 wanted";
    assert_eq!(missed("no such line", ""), [""; 0]);
    // Those of the other jobs stay: 14 of 22.
    let bar = "26 at B3.14: 14, at least 20 wanted";
    assert_eq!(missed("26 ", " B3.14"), [bar, job]);
    let marker = "28 at Q15.0: 14, at least 20 wanted";
    assert_eq!(missed("28 ", " Q15.0"), [marker, job]);
}

/// A rule's blocker may not be missing, and no rule has one of another's.
#[test]
fn blockers_that_no_rule_names() {
    let buffer = [1, 15].map(|position| Blocker::waiting(0, position));
    let queue = [0, 1, 2].map(|position| Blocker::queued(0, position));
    let trial = barred(3);
    let is_good = |blocker: Option<Blocker>, number: u8| {
        let mut told = answer(&trial);
        told.verdict.number = number;
        told.verdict.blocker = blocker;
        told.verdict.state.queues[0].count = 2;
        SpotCounts::new().take(&trial, &told)
    };
    let good = |number| {
        let buffer = buffer.map(|place| is_good(Some(place), number));
        (buffer, queue.map(|place| is_good(Some(place), number)))
    };
    assert_eq!(good(26), ([true, false], [false; 3]));
    assert_eq!(good(27), ([false; 2], [true, false, false]));
    for number in [23, 28] {
        assert_eq!(good(number), ([false; 2], [true, true, false]));
    }
    for number in [21, 22, 24, 25, 29, 32, 103] {
        assert_eq!(good(number), ([false; 2], [false; 3]));
    }
    for number in 21..=33 {
        let names = [22, 23, 26, 27, 28].contains(&number);
        assert_eq!(is_good(None, number), !names);
    }
}

#[test]
fn spots_are_all_that_the_sizes_allow() {
    let count = |rule| spots().iter().filter(|spot| spot.rule == rule).count();
    assert_eq!([22, 23, 26, 27, 28].map(count), [4, 48, 60, 16, 48]);
    assert_eq!(spots().len(), 176);
}
