//! Texts with one mistake, in a statement that says which locations share a line; and the line of the
//! text where the mistake stands.

use super::cases::sketched;
use super::free;
use super::statements::{lines, Line, Word};
use crate::judge::case::Case;
use crate::streams::layouts::apart;
use crate::streams::random::Random;

pub struct Mistaken {
    pub text: String,
    /// From 1.
    pub line: usize,
}

/// Where the mistaken statement stands.
#[derive(Clone, Copy)]
pub enum Place {
    BeforeLocations,
    BehindLocations,
    Last,
}

type Maker = fn(&mut Random, &Case) -> (Place, Line);

/// In turn: a name twice in a line, a name again in another line, names of no location, no name, a line
/// before there are names. A location's name stands in the last line of all: were it before one that
/// names it too, that one would be mistaken.
pub const MAKERS: [Maker; 6] = [
    |random, case| {
        let at = any(random, case);
        (Place::Last, statement(&[at.clone(), at]))
    },
    |_, case| {
        let shared = lines(case).into_iter().find(|line| line.len() > 2);
        let again = shared.map_or(Word::Location(0), |line| line[2].clone());
        (Place::Last, statement(&[again]))
    },
    |random, _| (anywhere(random), statement(&[Word::Key(NOWHERE)])),
    |random, case| {
        let names = [any(random, case), Word::Key(NOWHERE)];
        (Place::Last, statement(&names))
    },
    |random, _| (anywhere(random), statement(&[])),
    |random, case| (Place::BeforeLocations, statement(&[any(random, case)])),
];

/// A name that no location has.
const NOWHERE: &str = "nowhere-to-be-found";

fn statement(names: &[Word]) -> Line {
    [&[Word::Key("line")], names].concat()
}

fn any(random: &mut Random, case: &Case) -> Word {
    Word::Location(random.between(0, case.locations - 1))
}

fn anywhere(random: &mut Random) -> Place {
    random.pick(&[Place::BehindLocations, Place::Last])
}

/// As many texts, each sort in its turn.
pub fn draw(seed: u64, count: usize) -> Vec<Mistaken> {
    let mut random = Random::new(seed);
    let turns = MAKERS.iter().cycle().take(count);
    turns.map(|maker| one(&mut random, *maker)).collect()
}

/// Of a case two locations of which share a line: its text says so, unless a line stands before there
/// are names.
fn one(random: &mut Random, maker: Maker) -> Mistaken {
    let case = loop {
        let case = sketched(random, 1).remove(0);
        if case.lines < case.locations {
            break case;
        }
    };
    let (place, statement) = maker(random, &case);
    let case = match place {
        Place::BeforeLocations => apart(&case),
        _ => case,
    };
    let (text, line) = free::mistaken(random, &case, place, &statement);
    Mistaken { text, line }
}
