//! What the frames of whole programs must have.

use crate::judge::case::Case;
use crate::judge::machine::steps::{issue, persist};
use crate::judge::reading::read;
use crate::judge::whole::outcome::Outcome;
use crate::judge::writing::encode;
use crate::streams::machine::frame::{Job, Trial};
use crate::streams::random::Random;
use crate::streams::tally::Counts;
use crate::streams::whole::counts::WholeCounts;
use crate::streams::whole::generate::frames;
use crate::tests::by_hand::{compare, load, program, store, with_five, X, Y};

/// Two threads that write x, one of them y: three runs written out, two runs that cannot go on and
/// two cut off in turn, and a step too many.
fn stream() -> Vec<Trial> {
    let case = program(&[&[store(X, 1), store(Y, 2)], &[store(X, 3)]]);
    frames::all(&mut Random::new(1), &case)
}

fn wrong(frames: &[Trial]) -> Vec<String> {
    let mut counts = WholeCounts::new();
    frames.iter().for_each(|frame| counts.take(frame));
    counts.wrong()
}

/// What is said first once the case of one frame is changed.
fn wrong_with(frame: usize, change: fn(&mut Case)) -> String {
    let mut frames = stream();
    let mut case = read(&frames[frame].input).case;
    change(&mut case);
    frames[frame].input = encode(&case);
    wrong(&frames)[0].clone()
}

#[test]
fn the_frames_of_a_program() {
    let all = stream();
    assert_eq!((all.len(), wrong(&all)), (8, Vec::new()));
    let lengths = all.iter().map(|frame| read(&frame.input).case.count);
    let lengths: Vec<u16> = lengths.collect();
    assert_eq!(
        (&lengths[..4], lengths[5], lengths[7]),
        (&[9; 4][..], 9, 10)
    );
    assert!(lengths[4] < 9 && lengths[6] < 9);
    assert_eq!(wrong(&all[1..]), ["1 pairs without their run written out"]);
}

#[test]
fn frames_that_are_not_as_they_must_be() {
    let said = wrong_with(0, |case| case.steps[0] = persist(Y));
    assert_eq!(
        said,
        "frame 1: not the number or not the place that its run has"
    );
    let said = wrong_with(0, |case| case.want[0] += 1);
    assert_eq!(said, "frame 1: not that thread's last write");
    let said = wrong_with(0, |case| case.passed = [0, 1, 0, 0]);
    assert_eq!(said, "frame 1: not the run written out");
    let said = wrong_with(0, |case| case.passed = [0; 4]);
    assert_eq!(said, "frame 1: no location with one that writes it");
    let said = wrong_with(7, |case| {
        case.steps[10] = issue(0);
        case.count = 11;
    });
    assert_eq!(said, "frame 8: more than one step too many");
    let none = "frame 5: no case whose run is judged";
    assert_eq!(wrong_with(4, |case| case.threads = 5), none);
    let mut all = stream();
    all[4].job = Job::Case;
    assert_eq!(wrong(&all), [none]);
}

/// x holds 5 and y never does, so that each thread's first compare fails, and no run has the full
/// length, 11. Thread 1 compares again, with the 5, and writes x.
#[test]
fn the_frames_of_a_program_with_compares() {
    let code = [load(Y, 0), compare(X, 0, 1), store(Y, 2)];
    let again = [load(Y, 0), compare(X, 0, 3), compare(X, 0, 4)];
    let case = with_five(&[&code, &again]);
    let mut all = frames::all(&mut Random::new(1), &case);
    assert_eq!((all.len(), wrong(&all)), (7, Vec::new()));
    let finished = read(&all[2].input).case;
    let steps = &finished.steps[..usize::from(finished.count)];
    let failed = Outcome::failed(&finished, steps);
    assert_eq!((failed, steps.len()), (2, 9));
    for (more, said) in [(1, None), (2, Some("frame 3: more than one step too many"))] {
        let mut beyond = finished.clone();
        beyond.set_run(&[steps, &vec![issue(0); more][..]].concat());
        all[2].input = encode(&beyond);
        assert_eq!(wrong(&all).first().map(String::as_str), said);
    }
}

#[test]
fn words_that_do_not_tell() {
    let case = program(&[&[store(X, 1)], &[store(X, 1)]]);
    let frames = frames::all(&mut Random::new(1), &case);
    assert_eq!(
        wrong(&frames),
        ["frame 1: words that are not all different"]
    );
}
