//! "Composing takes a type, one value per signal and one mark per check, in list order. It writes the
//! head, the list's version, every signal the type carries and every check within the telegram's length;
//! all other bits are 0."

use crate::form::Form;
use crate::list::{fits, knows, List, Signal};
use crate::octets::write_field;
use crate::refusal::Refusal;
use crate::store::length_of;

/// Composes the R-telegram of type `kind` into `out`. Refusals 1 to 4, 9, 13, 14, 15, 16.
pub fn compose(
    list: &[u8],
    form: Form,
    kind: u64,
    values: &[u64],
    marks: &[u8],
    out: &mut [u8],
) -> Result<(), Refusal> {
    let list = List::judged(list, form)?;
    let length = length_of(kind)?;
    let kind = kind as u8;
    if values.len() != list.signals.len() || marks.len() != list.checks.len() {
        return Err(Refusal::plain(13));
    }

    // "Values and marks it doesn't write are not tested." Checks rise: those written come first.
    let written = list
        .checks
        .partition_point(|&check| usize::from(u16::from_be_bytes(check)) + 2 <= 8 * length);
    let marks = &marks[..written];
    if marks.iter().any(|&mark| mark > 3) {
        return Err(Refusal::plain(14));
    }
    if let Some(signal) = first_at_fault(&list, kind, values) {
        return Err(Refusal::with(15, signal));
    }
    if out.len() != length {
        return Err(Refusal::plain(16));
    }

    out.fill(0);
    out[0] = 0x10 | kind;
    out[1] = list.version;
    for (&check, &mark) in list.checks.iter().zip(marks) {
        write_field(
            out,
            usize::from(u16::from_be_bytes(check)),
            2,
            u64::from(mark),
        );
    }
    for (signal, &value) in list.signals.iter().map(Signal::of).zip(values) {
        if signal.carried_by(kind) {
            write_field(
                out,
                usize::from(signal.start()),
                usize::from(signal.width()),
                value,
            );
        }
    }
    Ok(())
}

/// "15: a written value at or above 2^width, or its code not known": the first signal at fault.
#[inline]
fn first_at_fault(list: &List, kind: u8, values: &[u64]) -> Option<usize> {
    let mut codes = list.codes_in_order();
    list.signals
        .iter()
        .map(Signal::of)
        .zip(values)
        .enumerate()
        .position(|(number, (signal, &value))| {
            let codes = codes.next_of(number);
            signal.carried_by(kind) && !(fits(value, signal.width()) && knows(codes, value))
        })
}
