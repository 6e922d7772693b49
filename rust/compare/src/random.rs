//! Numbers that look random and can be had again.

use std::cell::Cell;

/// splitmix64.
pub struct Random(Cell<u64>);

const STEP: u64 = 0x9E37_79B9_7F4A_7C15;

fn mixed(mut z: u64) -> u64 {
    z = (z ^ (z >> 30)).wrapping_mul(0xBF58_476D_1CE4_E5B9);
    z = (z ^ (z >> 27)).wrapping_mul(0x94D0_49BB_1331_11EB);
    z ^ (z >> 31)
}

impl Random {
    /// Every case has numbers of its own, so that it can be run alone.
    pub fn of_case(seed: u64, case: u64) -> Self {
        Random(Cell::new(mixed(mixed(seed.wrapping_add(STEP)) ^ case)))
    }

    pub fn word(&self) -> u64 {
        self.0.set(self.0.get().wrapping_add(STEP));
        mixed(self.0.get())
    }

    /// A number below `end`.
    pub fn below(&self, end: u64) -> u64 {
        self.word() % end
    }

    /// An index of something that has `len` places.
    pub fn index(&self, len: usize) -> usize {
        self.below(len as u64) as usize
    }

    pub fn within(&self, low: u64, high: u64) -> u64 {
        low + self.below(high - low + 1)
    }

    pub fn one_in(&self, n: u64) -> bool {
        self.below(n) == 0
    }

    pub fn of<T: Copy>(&self, things: &[T]) -> T {
        things[self.index(things.len())]
    }

    pub fn octet(&self) -> u8 {
        self.word() as u8
    }

    pub fn octets(&self, len: usize) -> Vec<u8> {
        let mut octets = Vec::with_capacity(len + 8);
        while octets.len() < len {
            octets.extend_from_slice(&self.word().to_le_bytes());
        }
        octets.truncate(len);
        octets
    }

    /// One above, one below, or far off.
    pub fn near(&self, n: u64) -> u64 {
        match self.below(5) {
            0 | 1 => n.wrapping_add(1),
            2 | 3 => n.wrapping_sub(1),
            _ => self.word(),
        }
    }

    /// A number that is `n` once it is cut to fewer bits.
    pub fn beyond(&self, n: u64) -> u64 {
        n | self.of(&[1 << 8, 1 << 16, 1 << 31, 1 << 32, 1 << 63, u64::MAX])
    }
}
