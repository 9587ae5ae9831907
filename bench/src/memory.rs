//! What a plain search keeps of the states that it has met: nothing, or each of them in a hash set.

use std::collections::HashSet;
use std::hash::{BuildHasher, BuildHasherDefault, Hash, Hasher};

pub trait Memory<M> {
    /// Is the state met for the first time, as far as is remembered?
    fn is_new(&mut self, state: &M) -> bool;
}

pub struct Forgets;

impl<M> Memory<M> for Forgets {
    fn is_new(&mut self, _: &M) -> bool {
        true
    }
}

impl<M: Clone + Eq + Hash, H: BuildHasher> Memory<M> for HashSet<M, H> {
    fn is_new(&mut self, state: &M) -> bool {
        // most states are met again: those are not cloned
        !self.contains(state) && self.insert(state.clone())
    }
}

/// A hasher that rotates and multiplies, as the Rust compiler's own does.
pub type Fast = BuildHasherDefault<Multiplying>;

#[derive(Default)]
pub struct Multiplying(u64);

impl Multiplying {
    fn mix(&mut self, word: u64) {
        self.0 = (self.0.rotate_left(5) ^ word).wrapping_mul(0x517C_C1B7_2722_0A95);
    }
}

impl Hasher for Multiplying {
    fn write(&mut self, bytes: &[u8]) {
        let mut words = bytes.chunks_exact(8);
        for word in &mut words {
            self.mix(u64::from_le_bytes(word.try_into().expect("eight bytes")));
        }
        let mut last = [0; 8];
        last[..words.remainder().len()].copy_from_slice(words.remainder());
        self.mix(u64::from_le_bytes(last));
    }

    fn write_u8(&mut self, number: u8) {
        self.mix(u64::from(number));
    }

    fn write_u32(&mut self, number: u32) {
        self.mix(u64::from(number));
    }

    fn write_usize(&mut self, number: usize) {
        self.mix(number as u64);
    }

    fn finish(&self) -> u64 {
        // the low bits of a product are mixed least, and the set takes them first
        self.0.rotate_left(26)
    }
}
