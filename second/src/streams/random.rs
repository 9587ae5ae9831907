//! A small fixed generator of numbers (splitmix64).

pub struct Random {
    state: u64,
}

impl Random {
    pub fn new(seed: u64) -> Random {
        Random { state: seed }
    }

    fn next(&mut self) -> u64 {
        self.state = self.state.wrapping_add(0x9E37_79B9_7F4A_7C15);
        let mut mixed = self.state;
        mixed = (mixed ^ (mixed >> 30)).wrapping_mul(0xBF58_476D_1CE4_E5B9);
        mixed = (mixed ^ (mixed >> 27)).wrapping_mul(0x94D0_49BB_1331_11EB);
        mixed ^ (mixed >> 31)
    }

    /// 0 to bound - 1.
    pub fn below(&mut self, bound: usize) -> usize {
        (self.next() % bound as u64) as usize
    }

    /// Both ends included.
    pub fn between(&mut self, least: u8, most: u8) -> u8 {
        least + self.below(usize::from(most - least) + 1) as u8
    }

    pub fn one_in(&mut self, bound: usize) -> bool {
        self.below(bound) == 0
    }

    pub fn pick<T: Copy>(&mut self, from: &[T]) -> T {
        from[self.below(from.len())]
    }

    /// None where there is nothing to pick from.
    pub fn pick_some<T: Copy>(&mut self, from: &[T]) -> Option<T> {
        if from.is_empty() {
            return None;
        }
        Some(self.pick(from))
    }

    /// A word, the telling ones often.
    pub fn word(&mut self) -> u32 {
        let any = self.next() as u32;
        self.pick(&[0, 1, 256, 500, 1 << 31, u32::MAX, any, any])
    }

    pub fn nonzero_word(&mut self) -> u32 {
        self.word().max(1)
    }

    /// A number that is not below the bound: the bound itself often.
    pub fn beyond(&mut self, bound: u8) -> u8 {
        let any = self.between(bound, 255);
        self.pick(&[bound, bound, bound.saturating_add(1), 255, any])
    }

    pub fn bytes(&mut self, length: usize) -> Vec<u8> {
        (0..length).map(|_| self.between(0, 255)).collect()
    }
}
