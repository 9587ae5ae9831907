//! Frames of the question: their stream, their lines, and the runs that decide.

use crate::judge::writing::encode;
use crate::streams::cases::generate::valid::ROW;
use crate::streams::question::answer::{answer, runs_line};
use crate::streams::question::frame::Query;
use crate::tests::by_hand::{asking, store, X};

#[test]
fn the_runs_that_decide() {
    let line = |input: &[u8], room, budget| {
        let input = input.to_vec();
        runs_line(&Query {
            input,
            room,
            budget,
        })
    };
    for budget in [8, 9, u32::MAX] {
        assert_eq!(line(&ROW, 48, budget), "100 8\n");
    }
    assert_eq!(line(&ROW, 48, 7), "102 7\n");
    assert_eq!(line(&ROW, 48, 0), "102 0\n");
    assert_eq!(line(&ROW, 47, 8), "31 0\n");
    assert_eq!(line(&ROW[..45], 48, 8), "1 0\n");
    // The empty run, and the store issued, moved and persisted: none leaves 2.
    let never = encode(&asking(&[store(X, 1)], &[(X, 2)], 0));
    for budget in [4, 5, u32::MAX] {
        assert_eq!(line(&never, 24, budget), "101 4\n");
    }
    assert_eq!(line(&never, 24, 3), "102 3\n");
}

#[test]
fn questions_come_back_from_their_stream() {
    let query = Query {
        input: ROW.to_vec(),
        room: 48,
        budget: u32::MAX,
    };
    let mut stream = Vec::new();
    assert!(query.write_to(&mut stream).is_ok());
    assert_eq!(stream[..8], [3, 0, 0, 128, 50, 0, 0, 0]);
    assert_eq!(stream[8..16], [48, 0, 0, 0, 255, 255, 255, 255]);
    let mut rest = &stream[..];
    assert_eq!(Query::read_from(&mut rest).ok(), Some(Some(query.clone())));
    assert_eq!(Query::read_from(&mut rest).ok(), Some(None));
    assert!(Query::read_from(&mut &stream[..65]).is_err());
    for (at, byte) in [(0, 2), (3, 0), (5, 33), (9, 33)] {
        let mut other = stream.clone();
        other[at] = byte;
        assert!(Query::read_from(&mut &other[..]).is_err());
    }
    let line = answer(&query).line();
    assert!(line.starts_with("100 5 0400060000000000") && line.ends_with("a5a5a5a5a5a5a5a5\n"));
    let none = answer(&Query { room: 0, ..query });
    assert_eq!(none.line(), "31 0 -\n");
}
