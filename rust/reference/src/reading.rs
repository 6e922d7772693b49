//! "Reading gives a value and a reason. The first that applies, from 2 upward; with 2 to 8 the value is
//! the replacement".

use crate::form::Form;
use crate::list::{knows, CodeEntry, List, Signal};
use crate::octets::{read_field, read_mark};
use crate::refusal::Refusal;
use crate::sizes::{HEAD, HEARD};
use crate::store::{age_of, slot_of, slots, Slot};

/// A value and its reason.
#[derive(Debug, Clone, Copy, PartialEq, Eq)]
pub struct Reading {
    /// The value read, or the replacement.
    pub value: u64,
    /// 0 live ok, 1 live forced, 2 never heard, 3 too old, 4 type does not carry it, 5 since-version
    /// above the telegram's, 6 mark error, 7 mark undefined, 8 code not known.
    pub reason: u8,
}

/// Reads signal number `signal` (from 0) of `vehicle` out of the store. Refusals 1 to 4, 5, 6, 11.
pub fn read(
    list: &[u8],
    form: Form,
    store: &[u8],
    now: u32,
    vehicle: u64,
    signal: u64,
) -> Result<Reading, Refusal> {
    read_under(&List::judged(list, form)?, store, now, vehicle, signal)
}

/// Reads under a judged list. Refusals 5, 6, 11.
#[inline]
pub(crate) fn read_under(
    list: &List,
    store: &[u8],
    now: u32,
    vehicle: u64,
    signal: u64,
) -> Result<Reading, Refusal> {
    let slots = slots(store)?;
    let slot = slot_of(vehicle)?;
    if signal >= list.signals.len() as u64 {
        return Err(Refusal::plain(11));
    }
    let number = signal as usize;
    let signal = list.signals.at(number);
    Ok(read_slot(
        list,
        signal,
        list.codes_of(number),
        &slots[slot],
        now,
    ))
}

/// Reads every signal of `vehicle`, each as [`read`] does: its value and the number of its reason, in list order. Refusals 1 to 4, 5, 6, and 13
/// where there is not one of each lent for every signal.
pub fn read_all(
    list: &[u8],
    form: Form,
    store: &[u8],
    now: u32,
    vehicle: u64,
    values: &mut [u64],
    reasons: &mut [u8],
) -> Result<(), Refusal> {
    let list = List::judged(list, form)?;
    let slots = slots(store)?;
    let slot = slot_of(vehicle)?;
    read_slots(&list, &slots[slot..=slot], now, values, reasons)
}

/// The same of the vehicles 1 to `last`, vehicle after vehicle. Refusals 1 to 4, 5, 6, 13.
pub fn read_train(
    list: &[u8],
    form: Form,
    store: &[u8],
    now: u32,
    last: u64,
    values: &mut [u64],
    reasons: &mut [u8],
) -> Result<(), Refusal> {
    let list = List::judged(list, form)?;
    let slots = slots(store)?;
    let last = slot_of(last)?;
    read_slots(&list, &slots[..=last], now, values, reasons)
}

/// Reads every signal of a judged list out of each slot. Refusal 13.
#[inline]
fn read_slots(
    list: &List,
    slots: &[Slot],
    now: u32,
    values: &mut [u64],
    reasons: &mut [u8],
) -> Result<(), Refusal> {
    let entries = slots.len() * list.signals.len();
    if values.len() != entries || reasons.len() != entries {
        return Err(Refusal::plain(13));
    }
    let mut lent = values.iter_mut().zip(reasons);
    for slot in slots {
        let mut codes = list.codes_in_order();
        let signals = list.signals.iter().map(Signal::of).enumerate();
        for ((number, signal), (value, reason)) in signals.zip(lent.by_ref()) {
            let reading = read_slot(list, signal, codes.next_of(number), slot, now);
            (*value, *reason) = (reading.value, reading.reason);
        }
    }
    Ok(())
}

/// Reads a signal of a judged list, with its known codes, out of one slot, and looks at no other.
#[inline]
pub(crate) fn read_slot(
    list: &List,
    signal: Signal,
    codes: &[CodeEntry],
    slot: &Slot,
    now: u32,
) -> Reading {
    match live(list, signal, codes, slot, now) {
        Ok(reading) => reading,
        Err(reason) => Reading {
            value: signal.replacement(),
            reason,
        },
    }
}

/// The reading with reason 0 or 1, or the reason for the replacement.
#[inline]
fn live(
    list: &List,
    signal: Signal,
    codes: &[CodeEntry],
    slot: &Slot,
    now: u32,
) -> Result<Reading, u8> {
    let telegram = &slot[HEAD..];
    let (head, telegram_type) = (telegram[0], telegram[0] & 15);

    // "2 never heard (also a stored head with application type other than 1 or type not 1-3)"
    let expired = match slot[HEARD] {
        1 => false,
        2 => true,
        _ => return Err(2),
    };
    if !matches!(head, 0x11..=0x13) {
        return Err(2);
    }
    // "Within the limit means age ≤ limit, or limit 0." "For an expired slot, signals with a limit are too
    // old (reason 3) and signals with none read as before."
    if signal.limit() != 0 && (expired || age_of(slot, now) > signal.limit()) {
        return Err(3);
    }
    if !signal.carried_by(telegram_type) {
        return Err(4);
    }
    // "octet 2 the R data version, where 0 is read as 1"
    if signal.since() > telegram[1].max(1) {
        return Err(5);
    }
    // "00 error, 01 ok, 10 forced, 11 undefined"; "0 live ok (also where there is no check)"
    let reason = match list.check_place(signal) {
        0 => 0,
        place => match read_mark(telegram, usize::from(place)) {
            0 => return Err(6),
            1 => 0,
            2 => 1,
            _ => return Err(7),
        },
    };
    let value = read_field(
        telegram,
        usize::from(signal.start()),
        usize::from(signal.width()),
    );
    if !knows(codes, value) {
        return Err(8);
    }
    Ok(Reading { value, reason })
}
