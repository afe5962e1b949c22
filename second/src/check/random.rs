//! A small generator of pseudo-random numbers (splitmix64).

#[derive(Clone, Debug)]
pub struct Random(u64);

impl Random {
    pub fn new(seed: u64) -> Self {
        Random(seed)
    }

    fn step(&mut self) -> u64 {
        self.0 = self.0.wrapping_add(0x9E37_79B9_7F4A_7C15);
        let mut z = self.0;
        z = (z ^ z >> 30).wrapping_mul(0xBF58_476D_1CE4_E5B9);
        z = (z ^ z >> 27).wrapping_mul(0x94D0_49BB_1331_11EB);
        z ^ z >> 31
    }

    pub fn word(&mut self) -> u32 {
        (self.step() >> 32) as u32
    }

    /// A number below the bound, 0 for a bound of 0.
    pub fn below(&mut self, bound: usize) -> usize {
        ((u64::from(self.word()) * bound as u64) >> 32) as usize
    }

    /// True in so many of a hundred cases.
    pub fn percent(&mut self, rate: usize) -> bool {
        self.below(100) < rate
    }

    /// True in so many of a thousand cases.
    pub fn permille(&mut self, rate: usize) -> bool {
        self.below(1000) < rate
    }

    pub fn pick<T: Copy>(&mut self, choices: &[T]) -> T {
        choices[self.below(choices.len())]
    }

    /// The bits with a chance of so many percent, else 0.
    pub fn maybe(&mut self, bits: u32, rate: usize) -> u32 {
        if self.percent(rate) {
            bits
        } else {
            0
        }
    }
}
