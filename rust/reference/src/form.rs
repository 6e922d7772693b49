//! C-18, list form 2: signal entries have 18 octets, "the last two that number packed by us, 0 for none". All
//! else of a list, and all that is answered under it, is as in form 1.

use crate::list::List;
use crate::refusal::Refusal;
use crate::sizes::{SERIAL_SIZE, SIGNAL_SIZE};

/// How the signal entries of a list are laid out.
#[derive(Debug, Clone, Copy, PartialEq, Eq)]
pub enum Form {
    /// Without serial numbers.
    One = 1,
    /// With a serial number behind each entry.
    Two = 2,
}

impl Form {
    /// The form that a number says: 2 is form 2, any other is form 1.
    pub const fn of(number: u64) -> Form {
        match number {
            2 => Form::Two,
            _ => Form::One,
        }
    }

    /// The octets of a signal entry.
    pub const fn signal_size(self) -> usize {
        match self {
            Form::One => SIGNAL_SIZE,
            Form::Two => SIGNAL_SIZE + SERIAL_SIZE,
        }
    }
}

/// The serial number of signal number `signal`; in form 1 there is none, which is 0. Refusals 1 to 4,
/// 11.
pub fn serial(list: &[u8], form: Form, signal: u64) -> Result<u16, Refusal> {
    let list = List::judged(list, form)?;
    if signal >= list.signals.len() as u64 {
        return Err(Refusal::plain(11));
    }
    Ok(list.signals.serial(signal as usize))
}

/// "Moving to form 2 writes 0s". Refusals 1 to 4, 33.
pub fn to_form_2(list: &[u8], out: &mut [u8]) -> Result<(), Refusal> {
    let judged = List::judged(list, Form::One)?;
    lay_out(list, &judged, Form::Two, out)
}

/// "moving back needs every serial number 0". Refusals 1 to 4, 32, 33.
pub fn to_form_1(list: &[u8], out: &mut [u8]) -> Result<(), Refusal> {
    let judged = List::judged(list, Form::Two)?;
    if (0..judged.signals.len()).any(|signal| judged.signals.serial(signal) != 0) {
        return Err(Refusal::plain(32));
    }
    lay_out(list, &judged, Form::One, out)
}

/// Writes a judged list that has no serial number in a form: what stands before and behind the signal
/// entries stays as it is. Refusal 33.
fn lay_out(list: &[u8], judged: &List, form: Form, out: &mut [u8]) -> Result<(), Refusal> {
    let signals = judged.signals.len();
    let before = 2 + judged.checks.as_flattened().len() + 2;
    let behind = &list[before + judged.signals.octets().len()..];
    if out.len() != before + signals * form.signal_size() + behind.len() {
        return Err(Refusal::plain(33));
    }
    let (head, rest) = out.split_at_mut(before);
    let (entries, tail) = rest.split_at_mut(signals * form.signal_size());
    head.copy_from_slice(&list[..before]);
    for (to, from) in entries
        .chunks_exact_mut(form.signal_size())
        .zip(judged.signals.iter())
    {
        let (plain, serial) = to.split_at_mut(SIGNAL_SIZE);
        plain.copy_from_slice(from);
        serial.fill(0);
    }
    tail.copy_from_slice(behind);
    Ok(())
}
