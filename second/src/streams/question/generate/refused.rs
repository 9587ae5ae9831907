//! Inputs that are refused, by construction: the question's room and budget do not matter.

use crate::streams::cases::generate::faults;
use crate::streams::machine::frame::MOST_INPUT;
use crate::streams::question::frame::Query;
use crate::streams::random::Random;
use crate::streams::wire::MOST_ROOM;

pub fn all(random: &mut Random) -> Vec<Vec<Query>> {
    (0..24).map(|_| some(random)).collect()
}

fn some(random: &mut Random) -> Vec<Query> {
    let faulty = faults::some(random).into_iter();
    let mut inputs: Vec<Vec<u8>> = faulty.map(|frame| frame.input).collect();
    inputs.push(Vec::new());
    inputs.retain(|input| input.len() <= MOST_INPUT as usize);
    let queries = inputs.iter().flat_map(|input| in_rooms(random, input));
    queries.collect()
}

fn in_rooms(random: &mut Random, input: &[u8]) -> Vec<Query> {
    let any = random.below(MOST_ROOM as usize + 1) as u32;
    let rooms = [0, random.pick(&[8, 100, any]), MOST_ROOM];
    rooms
        .iter()
        .map(|&room| Query {
            input: input.to_vec(),
            room,
            budget: random.pick(&[0, 1, 1000, u32::MAX]),
        })
        .collect()
}
