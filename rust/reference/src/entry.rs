//! A list's signals by their number, "from 0", and by type and start, which name one signal: "within a type each start is at or past the
//! end of the field before". Document 01 has no call for either; both are refused by its numbers.

use crate::form::Form;
use crate::list::{List, Signal};
use crate::refusal::Refusal;

/// "start (2), width (1), type (1), check (1), since-version (1), time limit in ms (4), replacement (6)", and the place of the check.
#[derive(Debug, Clone, Copy, PartialEq, Eq)]
pub struct Entry {
    /// Its first bit, as a bit address.
    pub start: u16,
    /// Its bits, 1 to 64.
    pub width: u8,
    /// The type: 0 common, 1 R1, 2 R2.
    pub kind: u8,
    /// "Check 0 is none, k names the k-th check."
    pub check: u8,
    /// The since-version.
    pub since: u8,
    /// The time limit in ms: "0 means none".
    pub limit: u32,
    /// The replacement.
    pub replacement: u64,
    /// The place of its check, as a bit address; 0, which no check has, if it has none.
    pub place: u16,
}

/// The entry of signal number `signal`. Refusals 1 to 4, 11.
pub fn signal_entry(list: &[u8], form: Form, signal: u64) -> Result<Entry, Refusal> {
    let list = List::judged(list, form)?;
    if signal >= list.signals.len() as u64 {
        return Err(Refusal::plain(11));
    }
    let signal = list.signals.at(signal as usize);
    Ok(Entry {
        start: signal.start(),
        width: signal.width(),
        kind: signal.kind(),
        check: signal.check(),
        since: signal.since(),
        limit: signal.limit(),
        replacement: signal.replacement(),
        place: list.check_place(signal),
    })
}

/// The number of the signal of type `kind` that starts at `start`. Refusals 1 to 4, 11.
pub fn find_signal(list: &[u8], form: Form, kind: u64, start: u64) -> Result<u64, Refusal> {
    let list = List::judged(list, form)?;
    let found =
        list.signals.iter().map(Signal::of).position(|signal| {
            u64::from(signal.kind()) == kind && u64::from(signal.start()) == start
        });
    match found {
        Some(number) => Ok(number as u64),
        None => Err(Refusal::plain(11)),
    }
}
