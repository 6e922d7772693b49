//! "A reading can be shown as a code, a speed in km/h, a percentage or a current". Of C-23: "From now on showing is asked for by list, store,
//! clock, vehicle, signal and kind, and no public call takes a bare raw value."

use crate::form::Form;
use crate::list::List;
use crate::reading::{read_under, Reading};
use crate::refusal::Refusal;

/// How a reading is to be shown; the numbers are those of C.
#[derive(Debug, Clone, Copy, PartialEq, Eq)]
pub enum Kind {
    /// As it stands.
    Code = 0,
    /// As a speed.
    Speed = 1,
    /// As a percentage, "unsigned".
    Percentage = 2,
    /// As a percentage, "two's complement".
    SignedPercentage = 3,
    /// As a current.
    Current = 4,
}

/// A shown value: "Each is an exact f32 (zero is +0)".
#[derive(Debug, Clone, Copy, PartialEq)]
pub enum Shown {
    /// The value itself.
    Code(u64),
    /// In km/h, "raw / 64".
    Speed(f32),
    /// In per cent, "raw × 25 / 4096, unsigned or two's complement as asked".
    Percentage(f32),
    /// In A, "raw × 125 / 2048".
    Current(f32),
}

/// A shown value and its reason.
#[derive(Debug, Clone, Copy, PartialEq)]
pub struct ShownReading {
    /// The value read, or the replacement, as the kind asks.
    pub shown: Shown,
    /// The reason of the reading, 0 to 8.
    pub reason: u8,
}

/// Shows the reading of signal number `signal` (from 0) of `vehicle`. "Scaled kinds need width 16", and
/// refusal 26 "means only a scaled kind with width not 16". Refusals 1 to 4, 5, 6, 11, 26.
pub fn show(
    list: &[u8],
    form: Form,
    store: &[u8],
    now: u32,
    vehicle: u64,
    signal: u64,
    kind: Kind,
) -> Result<ShownReading, Refusal> {
    let list = List::judged(list, form)?;
    let Reading { value, reason } = read_under(&list, store, now, vehicle, signal)?;
    let width = list.signals.at(signal as usize).width();
    // Of 16 bits nothing is cut: live or replacement, a value is below 2^width. Every product below stays
    // under 2^24 and every divisor is a power of two, so nothing is rounded.
    let raw = value as u16;
    let shown = match kind {
        Kind::Code => Shown::Code(value),
        _ if width != 16 => return Err(Refusal::plain(26)),
        Kind::Speed => Shown::Speed(f32::from(raw) / 64.0),
        Kind::Percentage => Shown::Percentage(f32::from(raw) * 25.0 / 4096.0),
        Kind::SignedPercentage => Shown::Percentage(f32::from(raw as i16) * 25.0 / 4096.0),
        Kind::Current => Shown::Current(f32::from(raw) * 125.0 / 2048.0),
    };
    Ok(ShownReading { shown, reason })
}
