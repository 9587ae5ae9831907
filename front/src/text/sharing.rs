//! Which locations share a cache line, as the `line` statements of a text say it.

use crate::messages::What;
use std::collections::{BTreeMap, HashMap};

#[derive(Default)]
pub struct Sharing {
    /// Of each location that a statement names, the number of that statement's line of text.
    named: BTreeMap<usize, usize>,
    pub is_given: bool,
    /// Whether some statement has a mistake: which cache lines there are is not known then.
    pub is_mistaken: bool,
}

impl Sharing {
    /// One location more of the statement on that line of text; or what is wrong with it.
    pub fn put(&mut self, at: usize, name: &str, number: usize) -> Result<(), What> {
        match self.named.get(&at) {
            Some(before) if *before == number => Err(What::NamedTwice(name.to_string())),
            Some(before) => Err(What::OnLineAlready(name.to_string(), *before)),
            None => {
                self.named.insert(at, number);
                Ok(())
            }
        }
    }

    /// The cache line of each location, numbered in the order of their first appearance; one that no statement names has its own.
    pub fn lines(&self, locations: usize) -> Vec<u8> {
        let mut numbers = HashMap::new();
        let mut lines = Vec::new();
        for at in 0..locations {
            // lines of text are numbered from 1, so that no statement has this key of a location by itself
            let key = self.named.get(&at).map_or((0, at), |number| (*number, 0));
            let next = numbers.len() as u8;
            lines.push(*numbers.entry(key).or_insert(next));
        }
        lines
    }
}

#[cfg(test)]
mod tests {
    use super::*;

    #[test]
    fn lines_are_numbered_by_first_appearance_and_not_by_their_statements() {
        let mut sharing = Sharing::default();
        for (at, number) in [(4, 7), (1, 7), (3, 9), (0, 9)] {
            assert_eq!(sharing.put(at, "name", number), Ok(()));
        }
        assert_eq!(sharing.lines(6), [0, 1, 2, 0, 1, 3]);
        assert_eq!(Sharing::default().lines(3), [0, 1, 2]);
    }

    #[test]
    fn a_location_keeps_the_line_that_it_got_first() {
        let mut sharing = Sharing::default();
        assert_eq!(sharing.put(0, "limit", 2), Ok(()));
        let name = || "limit".to_string();
        assert_eq!(sharing.put(0, "limit", 2), Err(What::NamedTwice(name())));
        let again = Err(What::OnLineAlready(name(), 2));
        assert_eq!(sharing.put(0, "limit", 3), again);
        assert_eq!(sharing.put(1, "valid", 3), Ok(()));
        assert_eq!(sharing.lines(2), [0, 1]);
    }
}
