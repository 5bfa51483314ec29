//! Numbers that look random and are the same in every run (splitmix64).

pub struct Random(u64);

impl Random {
    pub fn new(seed: u64) -> Self {
        Self(seed)
    }

    pub fn next(&mut self) -> u64 {
        self.0 = self.0.wrapping_add(0x9e3779b97f4a7c15);
        let mixed = (self.0 ^ self.0 >> 30).wrapping_mul(0xbf58476d1ce4e5b9);
        let mixed = (mixed ^ mixed >> 27).wrapping_mul(0x94d049bb133111eb);
        mixed ^ mixed >> 31
    }

    pub fn below(&mut self, bound: usize) -> usize {
        (self.next() % bound as u64) as usize
    }

    pub fn pick<T: Copy>(&mut self, from: &[T]) -> T {
        from[self.below(from.len())]
    }

    /// A register: any bits, few bits, many bits, or a number at an end.
    pub fn register(&mut self) -> u32 {
        let mut any = || self.next() as u32;
        match any() % 8 {
            0..4 => any(),
            4 => any() & any() & any(),
            5 => any() | any() | any(),
            6 => 1 << (any() % 32),
            _ => [0, 1, u32::MAX, u32::MAX - 1, 0x80000000, 0x7fffffff][any() as usize % 6],
        }
    }
}
