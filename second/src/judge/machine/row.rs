//! A fixed row of places of which the first few are in use: a queue or a store buffer.

use std::ops::{Deref, DerefMut};
use std::rc::Rc;

#[derive(Clone, Debug, PartialEq, Eq)]
pub struct Row<T, const N: usize> {
    /// What stands behind the used places is kept, whatever it is.
    pub places: [T; N],
    /// In a state from memory any number; where the state fits, at most N.
    pub count: u8,
}

impl<T: Copy + Default, const N: usize> Row<T, N> {
    pub fn new() -> Row<T, N> {
        Row {
            places: [T::default(); N],
            count: 0,
        }
    }

    /// Oldest first. A count beyond the row is cut, so this answers for any state.
    pub fn used(&self) -> &[T] {
        &self.places[..N.min(self.count.into())]
    }

    pub fn used_mut(&mut self) -> &mut [T] {
        &mut self.places[..N.min(self.count.into())]
    }

    pub fn push(&mut self, new: T) {
        self.places[usize::from(self.count)] = new;
        self.count += 1;
    }

    /// Later ones move down; the place given up is blank.
    pub fn take(&mut self, at: usize) -> T {
        let taken = self.places[at];
        let count = usize::from(self.count);
        self.places.copy_within(at + 1..count, at);
        self.places[count - 1] = T::default();
        self.count -= 1;
        taken
    }
}

/// A row that is copied as it is first changed: a step changes two at the most, and the states of a walk
/// have all others in common.
#[derive(Clone, Debug, PartialEq, Eq)]
pub struct Shared<R>(Rc<R>);

impl<R> Shared<R> {
    pub fn new(row: R) -> Shared<R> {
        Shared(Rc::new(row))
    }
}

impl<R> Deref for Shared<R> {
    type Target = R;

    fn deref(&self) -> &R {
        &self.0
    }
}

impl<R: Clone> DerefMut for Shared<R> {
    fn deref_mut(&mut self) -> &mut R {
        Rc::make_mut(&mut self.0)
    }
}
