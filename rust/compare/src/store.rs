//! Clocks, telegrams and stores: stores that takes left, and stores that no taking could leave.

use std::ops::Range;

use crate::list::{List, Signal};
use crate::random::Random;
use reference::{write_field, HEAD, HEARD, PREVIOUS, SLOT, STAMP, STORE, VEHICLES};

/// The length of a store before C-16, without the previous stamps.
pub const OLD_STORE: usize = STORE - VEHICLES * 4;
const _: () = assert!(OLD_STORE == 8_379);

// The wrappers spell the store's length themselves, since they depend on nothing: they must not differ.
const _: () = assert!(dustferrule::STORE_OCTETS == STORE);

/// A clock value: anywhere, or around the wrap.
pub fn clock(r: &Random) -> u32 {
    match r.below(4) {
        0 => r.word() as u32,
        1 => r.below(10_000) as u32,
        2 => u32::MAX - r.below(10_000) as u32,
        _ => r.of(&[0, 1, 5_000, 600_000, u32::MAX]),
    }
}

/// An age around one of the list's limits, or any.
fn age(r: &Random, list: &List) -> u32 {
    let limit = match list.signals.len() {
        0 => 5_000,
        len => list.signals[r.index(len)].limit as u32,
    };
    match r.below(16) {
        0..=5 => 0,
        6..=9 => limit,
        10 => limit.wrapping_add(1),
        11 => limit.wrapping_sub(1),
        12 => r.of(&[1, 4_999, 5_001, 600_001, u32::MAX, 1 << 31]),
        13 | 14 => r.below(u64::from(limit) + 1) as u32,
        _ => r.word() as u32,
    }
}

/// A value that the signal knows, mostly.
pub fn value(r: &Random, list: &List, signal: usize) -> u64 {
    match r.one_in(5) {
        true => any_value(r, &list.signals[signal]),
        false => known_value(r, list, signal),
    }
}

fn any_value(r: &Random, signal: &Signal) -> u64 {
    let top = signal.top();
    r.of(&[0, top, r.word() & top])
}

/// A value that the signal knows.
pub fn known_value(r: &Random, list: &List, signal: usize) -> u64 {
    let known: Vec<_> = list.codes_of(signal).collect();
    match known.is_empty() {
        true => any_value(r, &list.signals[signal]),
        false => {
            let range = r.of(&known);
            r.of(&[range.low, range.high, r.within(range.low, range.high)])
        }
    }
}

/// A mark, mostly one that lets its signals be live.
pub fn mark(r: &Random) -> u64 {
    r.of(&[1, 1, 1, 2, 2, 0, 3])
}

/// A telegram of this type as another vehicle might send it under this list: mostly good marks and known values.
pub fn telegram(r: &Random, list: &List, kind: u64) -> Vec<u8> {
    let len = if kind == 3 { 40 } else { 128 };
    let mut telegram = match r.one_in(2) {
        true => r.octets(len),
        false => vec![0; len],
    };
    telegram[0] = 0x10 | kind as u8;
    let version = list.version() as u8;
    telegram[1] = r.of(&[version, version, version, version - 1, 0, 1, 255]);
    for &check in &list.checks {
        write_field(&mut telegram, check as usize, 2, mark(r));
    }
    let carried = |s: &Signal| s.carried_by(kind);
    for (number, s) in list.signals.iter().enumerate().filter(|(_, s)| carried(s)) {
        let value = value(r, list, number);
        write_field(&mut telegram, s.start as usize, s.width as usize, value);
    }
    telegram
}

/// A telegram type; mostly one that carries some signal of the list.
pub fn kind(r: &Random, list: &List) -> u64 {
    match list.signals.len() {
        len if len > 0 && !r.one_in(3) => match list.signals[r.index(len)].kind {
            0 => r.within(1, 3),
            kind => kind,
        },
        _ => r.within(1, 3),
    }
}

/// Fills a vehicle's slot: the heard octet, the stamp, the previous stamp 0, the telegram and zeros behind it. Gives the slot.
pub fn plant<'a>(
    store: &'a mut [u8],
    vehicle: usize,
    heard: u8,
    stamp: u32,
    telegram: &[u8],
) -> &'a mut [u8] {
    let slot = &mut store[SLOT * (vehicle - 1)..SLOT * vehicle];
    slot.fill(0);
    slot[HEARD] = heard;
    slot[STAMP].copy_from_slice(&stamp.to_be_bytes());
    slot[HEAD..HEAD + telegram.len()].copy_from_slice(telegram);
    slot
}

/// A stamp of a slot: where it stands, or the previous one.
pub fn stamp_at(slot: &[u8], place: Range<usize>) -> u32 {
    slot[place].try_into().map_or(0, u32::from_be_bytes)
}

/// Gives a slot a previous stamp: none, the stamp itself, one shortly before or behind it, or any.
fn precede(r: &Random, slot: &mut [u8]) {
    let stamp = stamp_at(slot, STAMP);
    let previous = match r.below(6) {
        0 => 0,
        1 => stamp,
        2 => stamp.wrapping_add(1 + r.below(1_000) as u32),
        3 => r.word() as u32,
        _ => stamp.wrapping_sub(1 + r.below(10_000) as u32),
    };
    slot[PREVIOUS].copy_from_slice(&previous.to_be_bytes());
}

/// A store as read at a clock value: vehicles 1 to 3 were heard most of the time.
pub fn store(r: &Random, list: &List, now: u32) -> Vec<u8> {
    let mut store = match r.below(6) {
        0 => strange(r, list, now),
        _ => vec![0; STORE],
    };
    for vehicle in [1, 2, 3, r.within(1, 63) as usize] {
        hear(r, &mut store, vehicle, list, now);
    }
    store
}

/// Lets a vehicle be heard, mostly: at an age around one of the list's limits, and at times with what no taking leaves.
pub fn hear(r: &Random, store: &mut [u8], vehicle: usize, list: &List, now: u32) {
    if r.one_in(12) {
        return;
    }
    let kind = kind(r, list);
    let telegram = telegram(r, list, kind);
    let stamp = now.wrapping_sub(age(r, list));
    let heard = if r.one_in(5) { 2 } else { 1 };
    let slot = plant(store, vehicle, heard, stamp, &telegram);
    precede(r, slot);
    if r.one_in(8) {
        unsettle(r, slot);
    }
}

/// A store with all heard octets, at ages around the longest limit: some slots heard, one alone, all, or none.
pub fn parked(r: &Random, now: u32) -> Vec<u8> {
    let mut store = r.octets(STORE);
    let (often, alone) = (r.of(&[0, 1, 4, 4, 8]), r.index(VEHICLES));
    let ages = match r.one_in(4) {
        true => [600_001, 600_002, 1 << 31, u32::MAX],
        false => [0, 599_999, 600_000, 600_001],
    };
    for (i, slot) in store.chunks_mut(SLOT).enumerate() {
        slot[HEARD] = match r.below(8) < often || i == alone {
            true => 1,
            false => r.of(&[0, 2, 3, 7, 129, 255, r.octet()]),
        };
        let age = r.of(&ages);
        slot[STAMP].copy_from_slice(&now.wrapping_sub(age).to_be_bytes());
        slot[HEAD] = r.of(&[0x11, 0x12, 0x13, slot[HEAD]]);
    }
    store
}

/// What no taking and no sweep leaves.
fn unsettle(r: &Random, slot: &mut [u8]) {
    match r.below(4) {
        0 => slot[HEARD] = r.of(&[0, 3, 7, 128, 255]),
        1 => slot[HEAD] = r.octet(),
        2 => slot[HEAD] = r.of(&[0x10, 0x14, 0x1F, 0x01, 0x21, 0x31, 0x02, 0xF3]),
        _ => slot[HEAD + 40..].fill(0x5A),
    }
}

fn strange(r: &Random, list: &List, now: u32) -> Vec<u8> {
    let mut store = r.octets(STORE);
    for slot in store.chunks_mut(SLOT) {
        slot[HEARD] = r.of(&[0, 1, 1, 1, 1, 2, 2, 255]);
        let stamp = now.wrapping_sub(age(r, list));
        slot[STAMP].copy_from_slice(&stamp.to_be_bytes());
        slot[HEAD] = r.of(&[
            0x11, 0x12, 0x13, 0x11, 0x12, 0x13, 0x10, 0x14, 0x21, slot[HEAD],
        ]);
        slot[HEAD + 1] = r.of(&[0, 1, 2, 255, slot[HEAD + 1]]);
    }
    store
}
