//! Random numbers (xoshiro256**), one stream for each call.

use crate::limits::{FILES, POSITION, READS, TURN};

pub struct Random([u64; 4]);

impl Random {
    pub fn of(seed: u64, call: u64) -> Random {
        let mut random = Random([seed, call, !seed, 0x5851_f42d_4c95_7f2d]);
        for _ in 0..16 {
            random.word();
        }
        random
    }

    pub fn word(&mut self) -> u64 {
        let s = &mut self.0;
        let word = s[1].wrapping_mul(5).rotate_left(7).wrapping_mul(9);
        let shifted = s[1] << 17;
        s[2] ^= s[0];
        s[3] ^= s[1];
        s[1] ^= s[2];
        s[0] ^= s[3];
        s[2] ^= shifted;
        s[3] = s[3].rotate_left(45);
        word
    }

    pub fn below(&mut self, n: u64) -> u64 {
        (self.word() >> 11) % n
    }

    pub fn index(&mut self, n: usize) -> usize {
        self.below(n as u64) as usize
    }

    pub fn within(&mut self, least: u64, most: u64) -> u64 {
        least + self.below(most - least + 1)
    }

    pub fn chance(&mut self, percent: u64) -> bool {
        self.below(100) < percent
    }

    pub fn pick<T: Copy>(&mut self, from: &[T]) -> T {
        from[self.index(from.len())]
    }

    /// Any 64-bit number, most often one at a limit, at a power of two or next to `near`.
    pub fn odd(&mut self, near: u64) -> u64 {
        let corner = match self.below(5) {
            0 => self.pick(&[0, POSITION, TURN, READS, FILES as u64, u64::MAX]),
            1 => 1u64 << self.below(64),
            2 => self.below(100),
            3 => near,
            _ => return self.word(),
        };
        match self.below(3) {
            0 => corner.wrapping_sub(1),
            1 => corner,
            _ => corner.wrapping_add(1),
        }
    }
}
