// A small pseudo-random source (splitmix64): the same seed gives the same numbers everywhere.
// Used by the table generator, the item stream and the simulator.

pub struct Rng {
    state: u64,
}

impl Rng {
    pub fn new(seed: u64) -> Rng {
        Rng { state: seed }
    }

    /// A source of its own for part `part` of the run with this seed.
    pub fn part(seed: u64, part: u64) -> Rng {
        let mut first = Rng::new(seed ^ 0x5DEE_CE66_D1CE_4E5B);
        let mixed = first.next() ^ part.wrapping_mul(0xD6E8_FEB8_6659_FD93);
        let mut second = Rng::new(mixed);
        Rng::new(second.next())
    }

    pub fn next(&mut self) -> u64 {
        self.state = self.state.wrapping_add(0x9E37_79B9_7F4A_7C15);
        let mut z = self.state;
        z = (z ^ (z >> 30)).wrapping_mul(0xBF58_476D_1CE4_E5B9);
        z = (z ^ (z >> 27)).wrapping_mul(0x94D0_49BB_1331_11EB);
        z ^ (z >> 31)
    }

    /// A number from 0 to n − 1; n is not 0.
    pub fn below(&mut self, n: u64) -> u64 {
        self.next() % n
    }

    /// An index of a list that is not empty.
    pub fn index(&mut self, n: usize) -> usize {
        self.below(n as u64) as usize
    }

    /// A number from least to greatest, both included.
    pub fn between(&mut self, least: u64, greatest: u64) -> u64 {
        assert!(least <= greatest);
        least + self.below(greatest - least + 1)
    }

    /// True in so many cases of a hundred.
    pub fn chance(&mut self, percent: u64) -> bool {
        self.below(100) < percent
    }

    pub fn pick<T: Copy>(&mut self, list: &[T]) -> T {
        list[self.index(list.len())]
    }

    pub fn shuffle<T>(&mut self, list: &mut [T]) {
        for k in (1..list.len()).rev() {
            let other = self.index(k + 1);
            list.swap(k, other);
        }
    }
}
