//! A small generator of numbers: the same seed gives the same numbers everywhere.

pub struct Random(u64);

impl Random {
    pub fn new(seed: u32) -> Self {
        Self(u64::from(seed).wrapping_mul(2).wrapping_add(1))
    }

    fn next(&mut self) -> u32 {
        self.0 = self
            .0
            .wrapping_mul(6_364_136_223_846_793_005)
            .wrapping_add(1_442_695_040_888_963_407);
        let mixed = (self.0 ^ (self.0 >> 29)).wrapping_mul(0x9e37_79b9_7f4a_7c15);
        u32::try_from(mixed >> 32).expect("32 bits")
    }

    /// Any word.
    pub(crate) fn word(&mut self) -> u32 {
        self.next()
    }

    /// A number below n.
    pub fn below(&mut self, n: u32) -> u32 {
        self.next() % n
    }

    /// A number from a to b, both included.
    pub(crate) fn from(&mut self, a: u32, b: u32) -> u32 {
        a + self.below(b - a + 1)
    }

    /// Yes in so many of a hundred cases.
    pub(crate) fn chance(&mut self, percent: u32) -> bool {
        self.below(100) < percent
    }

    pub(crate) fn pick<T: Copy>(&mut self, of: &[T]) -> T {
        of[self.below(u32::try_from(of.len()).expect("a short list")) as usize]
    }
}
