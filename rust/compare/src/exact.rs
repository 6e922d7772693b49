//! Every shown value against whole numbers: no step of this uses floating point.

use crate::exhaustive::one_shown;
use dustferrule::{show, Form, Kind, Reason, Shown};

/// Whether these are the bits of the f32 that is exactly `number` / 2^`power`. Zero must be +0.
fn is_exactly(bits: u32, number: i64, power: i32) -> bool {
    if number == 0 {
        return bits == 0;
    }
    let (negative, fraction) = (bits >> 31 == 1, bits & 0x7F_FFFF);
    // The value is mantissa × 2^exponent.
    let (mantissa, exponent) = match bits >> 23 & 0xFF {
        0xFF => return false,
        0 => (fraction, -149),
        biased => (fraction | 0x80_0000, biased as i32 - 150),
    };
    let (mantissa, size) = (u128::from(mantissa), u128::from(number.unsigned_abs()));
    let same_size = match exponent + power {
        up @ 0..=63 => mantissa << up == size,
        down @ -63..=-1 => mantissa == size << -down,
        _ => false,
    };
    same_size && negative == (number < 0)
}

/// Tries all 65,536 raw values in all scaled kinds, live and as a replacement; gives their number, or what is wrong with the first that is not
/// exact.
pub fn all_shown() -> Result<u32, String> {
    let mut shown = 0;
    for raw in 0..=u16::MAX {
        let [list, store] = one_shown(16, raw.into());
        let (plain, signed) = (i64::from(raw), i64::from(raw as i16));
        // "speed = raw / 64; percentage = raw × 25 / 4096, unsigned or two's complement as asked; current = raw × 125 / 2048"
        let kinds = [
            (Kind::Speed, plain, 6),
            (Kind::Percentage, plain * 25, 12),
            (Kind::SignedPercentage, signed * 25, 12),
            (Kind::Current, plain * 125, 11),
        ];
        for (kind, number, power) in kinds {
            for (vehicle, reason) in [(1, Reason::LiveOk), (2, Reason::NeverHeard)] {
                let answer = show(&list, Form::One, &store, 0, vehicle, 0, kind);
                let exact = answer.is_ok_and(|read| {
                    let bits = bits_as(kind, read.shown);
                    read.reason == reason && bits.is_some_and(|x| is_exactly(x, number, power))
                });
                if !exact {
                    return Err(format!(
                        "{raw} as {kind:?}, {reason}, gives {answer:?}, not {number} / 2^{power}"
                    ));
                }
                shown += 1;
            }
        }
    }
    Ok(shown)
}

/// The bits of a value that is shown as this scaled kind shows one.
fn bits_as(kind: Kind, shown: Shown) -> Option<u32> {
    match (kind, shown) {
        (Kind::Speed, Shown::Speed(x))
        | (Kind::Percentage | Kind::SignedPercentage, Shown::Percentage(x))
        | (Kind::Current, Shown::Current(x)) => Some(x.to_bits()),
        _ => None,
    }
}

#[cfg(test)]
mod tests {
    use super::is_exactly;

    #[test]
    fn only_the_exact_bits() {
        for (x, number, power) in [(1.0f32, 1, 0), (-100.0, -100 << 12, 12), (0.015625, 1, 6)] {
            let bits = x.to_bits();
            assert!(is_exactly(bits, number, power));
            assert!(!is_exactly(bits + 1, number, power));
            assert!(!is_exactly(bits ^ 1 << 31, number, power));
            assert!(!is_exactly(bits, number, power + 1));
            assert!(!is_exactly(bits, number + 1, power));
        }
        assert!(is_exactly(0, 0, 6));
        assert!(!is_exactly((-0.0f32).to_bits(), 0, 6));
        assert!(!is_exactly(f32::INFINITY.to_bits(), 1 << 40, 0));
    }
}
