//! A small pseudo-random number generator (SplitMix64): the same seed gives the same numbers
//! everywhere.

#[derive(Debug, Clone)]
pub struct Rng(u64);

impl Rng {
    /// The generator of one case: cases can be made in any order, on any thread.
    pub fn of_case(seed: u64, index: u64) -> Rng {
        let mut rng = Rng(seed);
        let stream = rng.number();
        Rng(stream ^ index.wrapping_mul(0xD134_2543_DE82_EF95))
    }

    pub fn number(&mut self) -> u64 {
        self.0 = self.0.wrapping_add(0x9E37_79B9_7F4A_7C15);
        let mut mixed = self.0;
        mixed = (mixed ^ (mixed >> 30)).wrapping_mul(0xBF58_476D_1CE4_E5B9);
        mixed = (mixed ^ (mixed >> 27)).wrapping_mul(0x94D0_49BB_1331_11EB);
        mixed ^ (mixed >> 31)
    }

    /// A number below the bound, which is not 0.
    pub fn below(&mut self, bound: usize) -> usize {
        (self.number() % bound as u64) as usize
    }

    /// A number from the first to the last.
    pub fn within(&mut self, first: usize, last: usize) -> usize {
        first + self.below(last - first + 1)
    }

    /// Yes, so many times of 16.
    pub fn chance(&mut self, of_16: usize) -> bool {
        self.below(16) < of_16
    }

    pub fn pick<'a, T>(&mut self, choices: &'a [T]) -> &'a T {
        &choices[self.below(choices.len())]
    }

    pub fn shuffle<T>(&mut self, list: &mut [T]) {
        for place in (1..list.len()).rev() {
            list.swap(place, self.below(place + 1));
        }
    }
}
