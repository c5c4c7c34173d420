//! Seeded numbers: the same ones on every machine (splitmix64).

/// A row of numbers that its seed fixes.
pub struct Numbers {
    state: u64,
}

/// What splitmix64 adds to its state at each number.
const STRIDE: u64 = 0x9E37_79B9_7F4A_7C15;

impl Numbers {
    /// The numbers of one case of a seed.
    pub fn of(seed: u64, case: u64) -> Numbers {
        let mut start = Numbers { state: seed };
        let mixed = start.number() ^ case.wrapping_mul(STRIDE);
        Numbers { state: mixed }
    }

    /// The next number, any of 64 bits.
    pub fn number(&mut self) -> u64 {
        self.state = self.state.wrapping_add(STRIDE);
        let mut z = self.state;
        z = (z ^ (z >> 30)).wrapping_mul(0xBF58_476D_1CE4_E5B9);
        z = (z ^ (z >> 27)).wrapping_mul(0x94D0_49BB_1331_11EB);
        z ^ (z >> 31)
    }

    /// A number from 0 to one less than the bound.
    pub fn below(&mut self, bound: u64) -> u64 {
        self.number() % bound
    }

    /// A number from low to high, both among them.
    pub fn between(&mut self, (low, high): (u64, u64)) -> u64 {
        low + self.below(high - low + 1)
    }

    /// A place in a row of this length.
    pub fn place(&mut self, length: usize) -> usize {
        self.below(length as u64) as usize
    }

    /// Yes once in so many.
    pub fn once_in(&mut self, many: u64) -> bool {
        self.below(many) == 0
    }

    /// One of a row.
    pub fn pick<T: Copy>(&mut self, row: &[T]) -> T {
        row[self.place(row.len())]
    }

    /// So many distinct numbers below the bound, in no order; all of them where there are no more.
    pub fn distinct(&mut self, many: usize, bound: u64) -> Vec<u64> {
        let mut row = Vec::new();
        while row.len() < many.min(bound as usize) {
            let number = self.below(bound);
            if !row.contains(&number) {
                row.push(number);
            }
        }
        row
    }
}

#[cfg(test)]
mod tests {
    use super::*;

    #[test]
    fn splitmix64_as_published() {
        let mut numbers = Numbers { state: 1_234_567 };
        assert_eq!(numbers.number(), 6_457_827_717_110_365_317);
        assert_eq!(numbers.number(), 3_203_168_211_198_807_973);
    }
}
