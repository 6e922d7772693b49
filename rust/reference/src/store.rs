//! "The store is 8,379 octets: 63 slots of 133, vehicle 1 first. A slot is a heard octet (1 = heard, all
//! else not), a 4-octet stamp and 128 telegram octets." Of C-12: "heard octet 2, meaning expired". And of C-16:
//! "Each slot gains a 4-octet previous stamp after the stamp: a slot has 137 octets and the store 8,631."

use std::ops::Range;

use crate::refusal::Refusal;
use crate::sizes::{HEAD, HEARD, PREVIOUS, SLOT, STAMP, TELEGRAM, VEHICLES};

/// A vehicle's slot as it stands.
pub(crate) type Slot = [u8; SLOT];
/// The slots of all vehicles.
pub(crate) type Slots = [Slot; VEHICLES];

/// The slots of a store, or refusal 5, which "now means not 8,631 octets".
#[inline]
pub(crate) fn slots(store: &[u8]) -> Result<&Slots, Refusal> {
    match store.as_chunks() {
        (slots, []) => slots.try_into().map_err(|_| Refusal::plain(5)),
        _ => Err(Refusal::plain(5)),
    }
}

/// As [`slots`], to be written.
#[inline]
fn slots_mut(store: &mut [u8]) -> Result<&mut Slots, Refusal> {
    match store.as_chunks_mut() {
        (slots, []) => slots.try_into().map_err(|_| Refusal::plain(5)),
        _ => Err(Refusal::plain(5)),
    }
}

/// The place of a vehicle's slot, from 0, or refusal 6, "vehicle not 1-63".
#[inline]
pub(crate) fn slot_of(vehicle: u64) -> Result<usize, Refusal> {
    if (1..=VEHICLES as u64).contains(&vehicle) {
        Ok(vehicle as usize - 1)
    } else {
        Err(Refusal::plain(6))
    }
}

/// The stamp of a slot, or its previous one.
#[inline]
fn stamp_at(slot: &Slot, place: Range<usize>) -> u32 {
    let mut stamp = [0; 4];
    stamp.copy_from_slice(&slot[place]);
    u32::from_be_bytes(stamp)
}

/// "The age is now less stamp, modulo 4,294,967,296."
#[inline]
pub(crate) fn age_of(slot: &Slot, now: u32) -> u32 {
    now.wrapping_sub(stamp_at(slot, STAMP))
}

/// "R1 and R2 have 128 octets, R3 has 40." Refusal 9, "telegram type not 1-3".
#[inline]
pub(crate) fn length_of(telegram_type: u64) -> Result<usize, Refusal> {
    match telegram_type {
        1 | 2 => Ok(TELEGRAM),
        3 => Ok(40),
        _ => Err(Refusal::plain(9)),
    }
}

/// "Taking a telegram writes its whole slot (R3 is followed by 88 zeros) and no other octet of the
/// store." And: "Taking a telegram into a slot with heard octet 1 or 2 moves its stamp there; into any other
/// it writes 0." Refusals 5 to 10.
pub fn take(store: &mut [u8], vehicle: u64, now: u32, telegram: &[u8]) -> Result<(), Refusal> {
    let slots = slots_mut(store)?;
    let slot = &mut slots[slot_of(vehicle)?];
    let [head, _, ..] = *telegram else {
        return Err(Refusal::plain(7));
    };
    if head >> 4 != 1 {
        return Err(Refusal::plain(8));
    }
    if telegram.len() != length_of(u64::from(head & 15))? {
        return Err(Refusal::plain(10));
    }
    match slot[HEARD] {
        1 | 2 => slot.copy_within(STAMP, PREVIOUS.start),
        _ => slot[PREVIOUS].fill(0),
    }
    slot[HEARD] = 1;
    slot[STAMP].copy_from_slice(&now.to_be_bytes());
    let (taken, behind) = slot[HEAD..].split_at_mut(telegram.len());
    taken.copy_from_slice(telegram);
    behind.fill(0);
    Ok(())
}

/// "A read of the gap gives stamp less previous stamp, modulo 4,294,967,296. For any other heard octet the
/// gap is 0." Refusals 5 and 6.
pub fn gap(store: &[u8], vehicle: u64) -> Result<u32, Refusal> {
    let slots = slots(store)?;
    let slot = &slots[slot_of(vehicle)?];
    match slot[HEARD] {
        1 | 2 => Ok(stamp_at(slot, STAMP).wrapping_sub(stamp_at(slot, PREVIOUS))),
        _ => Ok(0),
    }
}

/// "a heard slot whose age is above 600,000 ms gets heard octet 2, meaning expired." Refusal 5.
pub fn sweep(store: &mut [u8], now: u32) -> Result<(), Refusal> {
    for slot in slots_mut(store)? {
        if slot[HEARD] == 1 && age_of(slot, now) > 600_000 {
            slot[HEARD] = 2;
        }
    }
    Ok(())
}
