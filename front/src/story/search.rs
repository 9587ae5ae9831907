//! Which proved search a question is put to, and how far it may go.

use crate::sizes;

#[derive(Clone, Copy, Debug, PartialEq, Eq)]
pub enum Search {
    /// The search that remembers: so many distinct states at most, kept in so many bytes of lent memory at most.
    Remember { states: u32, bytes: u64 },
    /// The plain walk: so many runs at most.
    Walk { runs: u32 },
}

/// What the search that remembers had no more of.
#[derive(Clone, Copy, Debug, PartialEq, Eq)]
pub enum Limit {
    States,
    Memory,
    Both,
    /// Less was lent than was asked for: the machine has no more.
    Machine,
}

impl Search {
    pub fn engine(self) -> &'static str {
        match self {
            Search::Remember { .. } => "remember",
            Search::Walk { .. } => "walk",
        }
    }
}

impl Limit {
    pub fn word(self) -> &'static str {
        match self {
            Limit::States => "states",
            Limit::Memory => "memory",
            Limit::Both => "both",
            Limit::Machine => "machine",
        }
    }
}

/// How many states so many bytes have room for.
pub fn room(bytes: u64) -> u64 {
    bytes / sizes::STATE
}

/// What kept the search from more states than it covered.
pub fn limit(covered: u32, states: u32, bytes: u64) -> Limit {
    let has_room = u64::from(covered) < room(bytes);
    match (covered < states, has_room) {
        (true, true) => Limit::Machine,
        (true, false) => Limit::Memory,
        (false, true) => Limit::States,
        (false, false) => Limit::Both,
    }
}

#[cfg(test)]
mod tests {
    use super::*;

    #[test]
    fn the_smaller_limit_is_the_one() {
        assert_eq!(limit(9, 9, 7680), Limit::States);
        assert_eq!(limit(10, 11, 7680), Limit::Memory);
        assert_eq!(limit(10, 10, 7680), Limit::Both);
        assert_eq!(limit(9, 10, 7680), Limit::Machine);
        // a part of a state is no room for one
        assert_eq!(limit(10, 11, 8447), Limit::Memory);
        assert_eq!(limit(10, 11, 8448), Limit::Machine);
    }
}
