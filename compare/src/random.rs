//! Random choices that a seed repeats: xorshift64*, since no crate is at hand.

pub struct Random(u64);

impl Random {
    pub fn new(seed: u64) -> Random {
        // An odd factor keeps all seeds apart, and the state must not be 0.
        let state = seed.wrapping_add(1).wrapping_mul(0x9e37_79b9_7f4a_7c15);
        Random(state.max(1))
    }

    fn next(&mut self) -> u64 {
        self.0 ^= self.0 >> 12;
        self.0 ^= self.0 << 25;
        self.0 ^= self.0 >> 27;
        self.0.wrapping_mul(0x2545_f491_4f6c_dd1d)
    }

    /// A seed of other random choices.
    pub fn seed(&mut self) -> u64 {
        self.next()
    }

    /// A number below the bound, which is not 0.
    pub fn below(&mut self, bound: usize) -> usize {
        (self.next() % bound as u64) as usize
    }

    /// A number from 0 to the last.
    pub fn up_to(&mut self, last: u32) -> u32 {
        (self.next() % (u64::from(last) + 1)) as u32
    }

    /// A byte from the first on.
    pub fn byte_from(&mut self, first: u8) -> u8 {
        first + self.below(256 - usize::from(first)) as u8
    }

    pub fn one_in(&mut self, n: usize) -> bool {
        self.below(n) == 0
    }

    pub fn pick<'a, T>(&mut self, from: &'a [T]) -> &'a T {
        &from[self.below(from.len())]
    }

    pub fn byte(&mut self) -> u8 {
        (self.next() >> 32) as u8
    }

    pub fn fill(&mut self, bytes: &mut [u8]) {
        for byte in bytes {
            *byte = self.byte();
        }
    }

    pub fn bytes(&mut self, length: usize) -> Vec<u8> {
        let mut bytes = vec![0; length];
        self.fill(&mut bytes);
        bytes
    }
}
