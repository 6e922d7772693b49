//! What the tests share: a generator of numbers, makers of lists, stores and telegrams, and document 01
//! told a second time in the slowest and plainest way (bit by bit, rule by rule), to hold the library to.
#![allow(dead_code)]

pub mod make;
pub mod plain;
// By its text, not by the library's names: the proved library, on which these tests run too, has none.
#[path = "../../src/sizes.rs"]
mod sizes;

pub use sizes::*;

/// The list L of the bench examples.
pub const L: [u8; 44] = [
    0x00, 0x01, 0x01, 0x42, // checks
    0x00, 0x01, 0x01, 0xA8, 0x04, 0x01, 0x01, 0x01, 0x00, 0x00, 0x13, 0x88, 0, 0, 0, 0, 0,
    0, // signals
    0x00, 0x02, 0x00, 0x00, 0x00, 0x00, 0x00, 0x06, 0x00, 0x00, 0x00, 0x0F, 0x00,
    0x0F, // codes
    0x00, 0x01, 0x00, 0x00, 0x01, 0x00, 0x00, 0x00, // routes
];

/// Rounds are divided by this, and the numbers of cases they must meet: an unoptimized build is slow.
pub const EASE: usize = if cfg!(debug_assertions) { 10 } else { 1 };

/// A refusal by its number and what it carries.
pub fn refusal(number: u8, carried: u64) -> reference::Refusal {
    reference::Refusal { number, carried }
}

/// An R1 of version 1 with octets 41 and 54 as given: the check and the signal of L.
pub fn r1(octet_41: u8, octet_54: u8) -> [u8; TELEGRAM] {
    let mut telegram = [0; TELEGRAM];
    telegram[0] = 0x11;
    telegram[1] = 1;
    telegram[40] = octet_41;
    telegram[53] = octet_54;
    telegram
}

/// The octets of a list of form 1 with these octets behind each signal entry.
pub fn widened(list: &[u8], checks: usize, serials: &[[u8; SERIAL_SIZE]]) -> Vec<u8> {
    let first = 2 + 2 * checks + 2;
    let (entries, behind) = list[first..].split_at(SIGNAL_SIZE * serials.len());
    let mut wide = list[..first].to_vec();
    for (entry, serial) in entries.chunks(SIGNAL_SIZE).zip(serials) {
        wide.extend_from_slice(entry);
        wide.extend_from_slice(serial);
    }
    wide.extend_from_slice(behind);
    wide
}

/// C-23: one signal from R1 octet 51 on, with no check, 5,000 ms, and this width and replacement.
pub fn list_v(width: u8, replacement: u64) -> Vec<u8> {
    let entry = [0x01, 0x90, width, 1, 0, 1, 0, 0, 0x13, 0x88];
    let replacement = &replacement.to_be_bytes()[2..];
    [&[0, 0, 0, 1], &entry[..], replacement, &[0; 4]].concat()
}

/// A store in which vehicle 1 sent an R1 of version 1 at 0, with a raw value in octets 51 and 52.
pub fn raw_at(raw: u16) -> Vec<u8> {
    let mut telegram = r1(0, 0);
    telegram[50..52].copy_from_slice(&raw.to_be_bytes());
    let mut store = vec![0; STORE];
    reference::take(&mut store, 1, 0, &telegram).unwrap();
    store
}

/// Fills a vehicle's slot: the heard octet, the stamp, the telegram and zeros behind it.
pub fn plant(store: &mut [u8], vehicle: usize, heard: u8, stamp: u32, telegram: &[u8]) {
    let slot = &mut store[SLOT * (vehicle - 1)..SLOT * vehicle];
    slot.fill(0);
    slot[HEARD] = heard;
    slot[STAMP].copy_from_slice(&stamp.to_be_bytes());
    slot[HEAD..HEAD + telegram.len()].copy_from_slice(telegram);
}

/// xorshift64*.
pub struct Random(u64);

impl Random {
    pub fn new(seed: u64) -> Self {
        Random(seed.wrapping_mul(0x9E37_79B9_7F4A_7C15) | 1)
    }

    pub fn word(&mut self) -> u64 {
        self.0 ^= self.0 >> 12;
        self.0 ^= self.0 << 25;
        self.0 ^= self.0 >> 27;
        self.0.wrapping_mul(0x2545_F491_4F6C_DD1D)
    }

    /// A number below `end`.
    pub fn below(&mut self, end: u64) -> u64 {
        (self.word() >> 16) % end
    }

    pub fn within(&mut self, low: u64, high: u64) -> u64 {
        low + self.below(high - low + 1)
    }

    pub fn one_in(&mut self, n: u64) -> bool {
        self.below(n) == 0
    }

    pub fn of<T: Copy>(&mut self, things: &[T]) -> T {
        things[self.below(things.len() as u64) as usize]
    }

    pub fn octets(&mut self, length: usize) -> Vec<u8> {
        (0..length)
            .map(|_| self.word() as u8 ^ (self.word() >> 40) as u8)
            .collect()
    }
}
