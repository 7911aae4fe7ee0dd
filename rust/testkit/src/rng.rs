//! A small deterministic generator: xoshiro256** seeded by splitmix64.

/// A stream of random numbers that depends on its seed alone.
#[derive(Clone, Debug)]
pub struct Rng {
    state: [u64; 4],
}

/// One step of splitmix64.
fn splitmix64(state: &mut u64) -> u64 {
    *state = state.wrapping_add(0x9e37_79b9_7f4a_7c15);
    let mut z = *state;
    z = (z ^ (z >> 30)).wrapping_mul(0xbf58_476d_1ce4_e5b9);
    z = (z ^ (z >> 27)).wrapping_mul(0x94d0_49bb_1331_11eb);
    z ^ (z >> 31)
}

impl Rng {
    /// The stream of this seed.
    pub fn new(seed: u64) -> Self {
        let mut seed = seed;
        Rng {
            state: std::array::from_fn(|_| splitmix64(&mut seed)),
        }
    }

    /// The next 64 bits.
    pub fn bits(&mut self) -> u64 {
        let s = &mut self.state;
        let result = s[1].wrapping_mul(5).rotate_left(7).wrapping_mul(9);
        let shifted = s[1] << 17;
        s[2] ^= s[0];
        s[3] ^= s[1];
        s[1] ^= s[2];
        s[0] ^= s[3];
        s[2] ^= shifted;
        s[3] = s[3].rotate_left(45);
        result
    }

    /// A number below `limit`, which is above 0.
    pub fn below(&mut self, limit: u64) -> u64 {
        ((u128::from(self.bits()) * u128::from(limit)) >> 64) as u64
    }

    /// An index below `limit`, which is above 0.
    pub fn index(&mut self, limit: usize) -> usize {
        self.below(limit as u64) as usize
    }

    /// A number from `low` to `high`, both included.
    pub fn within(&mut self, low: u64, high: u64) -> u64 {
        match (high - low).checked_add(1) {
            Some(count) => low + self.below(count),
            None => self.bits(),
        }
    }

    /// True once in `times`, on average.
    pub fn once_in(&mut self, times: u64) -> bool {
        self.below(times) == 0
    }

    /// One of these.
    pub fn pick<'a, T>(&mut self, items: &'a [T]) -> &'a T {
        &items[self.index(items.len())]
    }

    /// A number of at most `bits` bits that leans towards edges.
    pub fn edge(&mut self, bits: u32) -> u64 {
        let largest = u64::MAX >> (64 - bits);
        let power = 1 << self.below(u64::from(bits));
        let number = match self.below(8) {
            0 => *self.pick(&[0, 1, 2, 3]),
            1 => power,
            2 => power - 1,
            3 => power + 1,
            4 => largest.saturating_sub(self.below(4)),
            5 => self.bits() >> self.below(64),
            6 => self.below(100),
            _ => self.bits(),
        };
        number & largest
    }

    /// A u64 that leans towards edges.
    pub fn edge_u64(&mut self) -> u64 {
        self.edge(64)
    }

    /// A u32 that leans towards edges.
    pub fn edge_u32(&mut self) -> u32 {
        self.edge(32) as u32
    }

    /// An i32 that leans towards edges, negative half of the time.
    pub fn edge_i32(&mut self) -> i32 {
        let number = self.edge_u32();
        if self.once_in(2) {
            number as i32
        } else {
            number.wrapping_neg() as i32
        }
    }

    /// This many random bytes.
    pub fn bytes(&mut self, length: usize) -> Vec<u8> {
        let mut bytes = vec![0; length];
        self.fill(&mut bytes);
        bytes
    }

    /// Fills `bytes` with random ones.
    pub fn fill(&mut self, bytes: &mut [u8]) {
        let mut parts = bytes.chunks_exact_mut(8);
        for part in &mut parts {
            part.copy_from_slice(&self.bits().to_le_bytes());
        }
        let rest = parts.into_remainder();
        if !rest.is_empty() {
            rest.copy_from_slice(&self.bits().to_le_bytes()[..rest.len()]);
        }
    }

    /// Puts the items into a random order.
    pub fn shuffle<T>(&mut self, items: &mut [T]) {
        for last in (1..items.len()).rev() {
            items.swap(last, self.index(last + 1));
        }
    }
}

#[cfg(test)]
mod tests {
    use super::*;

    #[test]
    fn splitmix64_published_values() {
        let mut state = 1234567;
        let first: Vec<u64> = (0..3).map(|_| splitmix64(&mut state)).collect();
        assert_eq!(
            first,
            [
                6457827717110365317,
                3203168211198807973,
                9817491932198370423
            ]
        );
    }

    #[test]
    fn a_seed_gives_one_stream() {
        let (mut a, mut b, mut c) = (Rng::new(5), Rng::new(5), Rng::new(6));
        let (a, b, c) = (a.bytes(100), b.bytes(100), c.bytes(100));
        assert_eq!(a, b);
        assert_ne!(a, c);
    }

    #[test]
    fn numbers_keep_their_limits() {
        let mut rng = Rng::new(1);
        for _ in 0..10_000 {
            assert!(rng.below(7) < 7);
            assert!((3..=5).contains(&rng.within(3, 5)));
            assert!(rng.edge(12) < 1 << 12);
        }
    }
}
