//! C-24, "a gateway that reads under list A and composes the same telegram type anew": "Let it write error for a check if any signal under it
//! that the type carries could not be read live, or if the type carries none under it, and otherwise the mark it read."

use crate::form::Form;
use crate::list::{knows, List, Signal};
use crate::octets::{read_mark, write_field};
use crate::reading::read_slot;
use crate::refusal::Refusal;
use crate::sizes::{HEAD, HEARD, TELEGRAM};
use crate::store::{length_of, slot_of, slots, Slot};

/// Composes the telegram that `vehicle` was last heard with anew into `out`, as it is read under the list. Refusals 1 to 4, 5, 6, 9, 15, 16.
pub fn relay(
    list: &[u8],
    form: Form,
    store: &[u8],
    now: u32,
    vehicle: u64,
    out: &mut [u8],
) -> Result<(), Refusal> {
    let list = List::judged(list, form)?;
    let slots = slots(store)?;
    let slot = &slots[slot_of(vehicle)?];
    let kind = type_of(slot)?;
    let length = length_of(kind.into())?;

    // A refusal writes nothing: the telegram is made here.
    let mut telegram = [0; TELEGRAM];
    telegram[0] = 0x10 | kind;
    telegram[1] = list.version;
    let vouched = write_values(&list, kind, slot, now, &mut telegram)?;
    if out.len() != length {
        return Err(Refusal::plain(16));
    }
    write_marks(&list, vouched, slot, &mut telegram);
    out.copy_from_slice(&telegram[..length]);
    Ok(())
}

/// The type of the telegram in a slot, expired or not. A slot that was never heard, or whose head is none of an R-telegram, has no type to
/// compose: refusal 9.
#[inline]
fn type_of(slot: &Slot) -> Result<u8, Refusal> {
    match (slot[HEARD], slot[HEAD]) {
        (1 | 2, head @ 0x11..=0x13) => Ok(head & 15),
        _ => Err(Refusal::plain(9)),
    }
}

/// Writes what is read of every signal that the type carries, live or replaced, and gives the checks that are vouched for: the type carries a
/// signal under it, and each was read live. Check k is worth 2^(k - 1), of 64 checks at most. Refusal 15.
#[inline]
fn write_values(
    list: &List,
    kind: u8,
    slot: &Slot,
    now: u32,
    telegram: &mut [u8],
) -> Result<u64, Refusal> {
    let (mut carried, mut lost) = (0, 0);
    let mut codes = list.codes_in_order();
    for (number, signal) in list.signals.iter().map(Signal::of).enumerate() {
        let codes = codes.next_of(number);
        if !signal.carried_by(kind) {
            continue;
        }
        let reading = read_slot(list, signal, codes, slot, now);
        let check = match signal.check() {
            0 => 0,
            check => 1 << (check - 1),
        };
        carried |= check;
        if reading.reason > 1 {
            lost |= check;
            // "or its code not known": a value that was read live is known, a replacement need not be.
            if !knows(codes, reading.value) {
                return Err(Refusal::with(15, number));
            }
        }
        write_field(
            telegram,
            usize::from(signal.start()),
            usize::from(signal.width()),
            reading.value,
        );
    }
    Ok(carried & !lost)
}

/// Writes the marks of the vouched checks as they stand in the slot; all others are error, which is 00. A check behind the telegram's end is
/// not vouched for, since it is no common signal's.
#[inline]
fn write_marks(list: &List, vouched: u64, slot: &Slot, telegram: &mut [u8]) {
    let heard = &slot[HEAD..];
    for (number, &check) in list.checks.iter().enumerate() {
        if vouched >> number & 1 == 1 {
            let place = usize::from(u16::from_be_bytes(check));
            write_field(telegram, place, 2, read_mark(heard, place).into());
        }
    }
}
