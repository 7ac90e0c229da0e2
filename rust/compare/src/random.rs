//! A small random generator, started anew for each case.

pub struct Random(u64);

impl Random {
    pub fn of_case(seed: u64, case: u64) -> Random {
        let mut random = Random(seed);
        random.0 = random.next() ^ case;
        random.next();
        random
    }

    pub fn next(&mut self) -> u64 {
        self.0 = self.0.wrapping_add(0x9E37_79B9_7F4A_7C15);
        let mixed = (self.0 ^ (self.0 >> 30)).wrapping_mul(0xBF58_476D_1CE4_E5B9);
        let mixed = (mixed ^ (mixed >> 27)).wrapping_mul(0x94D0_49BB_1331_11EB);
        mixed ^ (mixed >> 31)
    }

    pub fn word(&mut self) -> u32 {
        self.next() as u32
    }

    /// 0 to the limit, the limit excluded.
    pub fn below(&mut self, limit: u32) -> u32 {
        ((u64::from(self.word()) * u64::from(limit)) >> 32) as u32
    }

    /// Both ends included.
    pub fn between(&mut self, low: u32, high: u32) -> u32 {
        let range = u64::from(high - low) + 1;
        low + ((u64::from(self.word()) * range) >> 32) as u32
    }

    pub fn one_in(&mut self, count: u32) -> bool {
        self.below(count) == 0
    }

    pub fn pick<T: Copy>(&mut self, from: &[T]) -> T {
        from[self.below(from.len() as u32) as usize]
    }

    pub fn bytes(&mut self, count: usize) -> Vec<u8> {
        let mut bytes = vec![0; count];
        for chunk in bytes.chunks_mut(8) {
            chunk.copy_from_slice(&self.next().to_le_bytes()[..chunk.len()]);
        }
        bytes
    }

    /// The number with one bit more, from this bit on: itself again once high bits are lost.
    pub fn with_high_bit(&mut self, number: u32, from: u32) -> u32 {
        number | 1 << self.between(from, 31)
    }

    /// A word that is often small or next to a power of two.
    pub fn number(&mut self) -> u32 {
        match self.below(5) {
            0 => self.below(8),
            1 => {
                let power = 1u32 << self.below(32);
                power.wrapping_add(self.below(3)).wrapping_sub(1)
            }
            2 => u32::MAX - self.below(20),
            3 => self.below(5_000),
            _ => self.word(),
        }
    }
}
