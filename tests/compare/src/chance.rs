//! The chance that all cases are made of: the same for one seed on every machine.

pub struct Chance(u64);

impl Chance {
    pub fn new(seed: u64) -> Chance {
        Chance(seed)
    }

    pub fn next(&mut self) -> u64 {
        self.0 = self.0.wrapping_add(0x9E37_79B9_7F4A_7C15);
        let mut mixed = self.0;
        mixed = (mixed ^ mixed >> 30).wrapping_mul(0xBF58_476D_1CE4_E5B9);
        mixed = (mixed ^ mixed >> 27).wrapping_mul(0x94D0_49BB_1331_11EB);
        mixed ^ mixed >> 31
    }

    pub fn byte(&mut self) -> u8 {
        self.next() as u8
    }

    pub fn below(&mut self, limit: usize) -> usize {
        (self.next() % limit as u64) as usize
    }

    /// True `percent` times of a hundred.
    pub fn often(&mut self, percent: usize) -> bool {
        self.below(100) < percent
    }

    pub fn of<T: Copy>(&mut self, choices: &[T]) -> T {
        choices[self.below(choices.len())]
    }

    pub fn bytes(&mut self, n: usize) -> Vec<u8> {
        (0..n).map(|_| self.byte()).collect()
    }

    /// A number of an entry: mostly one that is there or just past the last one, seldom a huge one.
    pub fn entry(&mut self, count: usize) -> u32 {
        match self.below(16) {
            0 => count as u32,
            1 => self.of(&[256, 1 << 31, u32::MAX, count as u32 + 1]),
            _ => self.below(count.max(1)) as u32,
        }
    }

    /// The room of an output for `exact` elements: exact, one short, none, or more.
    pub fn room(&mut self, exact: usize) -> usize {
        match self.below(6) {
            0 => exact.saturating_sub(1),
            1 => 0,
            2 => exact + 1 + self.below(40),
            3 => self.below(exact + 1),
            _ => exact,
        }
    }
}
