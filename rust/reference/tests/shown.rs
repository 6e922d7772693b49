mod support;

use reference::{show, Form, Kind, Refusal, Shown, ShownReading};
use support::{list_v, make, plain, raw_at, refusal, Random, EASE, STORE};

const SCALED: [Kind; 4] = [
    Kind::Speed,
    Kind::Percentage,
    Kind::SignedPercentage,
    Kind::Current,
];

/// Signal 0 of vehicle 1, in time, under a list of form 1.
fn shown(list: &[u8], store: &[u8], kind: Kind) -> Result<ShownReading, Refusal> {
    show(list, Form::One, store, 5_000, 1, 0, kind)
}

/// The f32's bits as a whole number times 2^-16, or None where it isn't one.
fn sixteenths(shown: f32) -> Option<i64> {
    let bits = shown.to_bits();
    let (negative, exponent, fraction) = (
        bits >> 31 == 1,
        (bits >> 23) & 255,
        i64::from(bits & 0x7F_FFFF),
    );
    if bits == 0 {
        return Some(0);
    }
    if exponent == 0 || exponent == 255 {
        return None;
    }
    // (2^23 + fraction) × 2^(exponent - 150 + 16)
    let shift = exponent as i32 - 134;
    let whole = fraction + (1 << 23);
    let scaled = if shift >= 0 {
        whole << shift
    } else if whole % (1 << -shift) == 0 {
        whole >> -shift
    } else {
        return None;
    };
    Some(if negative { -scaled } else { scaled })
}

/// Holds what is shown to the kind and to the value that was read.
fn assert_shows(answer: ShownReading, kind: Kind, value: u64) {
    let n = value as i64;
    let signed = if value < 32_768 { n } else { n - 65_536 };
    let (shown, wanted) = match (kind, answer.shown) {
        (Kind::Code, Shown::Code(code)) => return assert_eq!(code, value),
        (Kind::Speed, Shown::Speed(speed)) => (speed, n * 1024),
        (Kind::Percentage, Shown::Percentage(percentage)) => (percentage, n * 25 * 16),
        (Kind::SignedPercentage, Shown::Percentage(percentage)) => (percentage, signed * 25 * 16),
        (Kind::Current, Shown::Current(current)) => (current, n * 125 * 32),
        other => panic!("{other:?}"),
    };
    assert_eq!(sixteenths(shown), Some(wanted), "{value} as {kind:?}");
}

/// Vehicle 1 is live; vehicle 2 was never heard, and the same value is its replacement.
#[test]
fn every_raw_value_is_exact() {
    for raw in 0..=65_535 {
        let (list, store) = (list_v(16, raw.into()), raw_at(raw));
        for kind in SCALED {
            for (vehicle, reason) in [(1, 0), (2, 2)] {
                let answer = show(&list, Form::One, &store, 0, vehicle, 0, kind).unwrap();
                assert_shows(answer, kind, raw.into());
                assert_eq!(answer.reason, reason);
            }
        }
    }
}

#[test]
fn zero_is_plus_zero() {
    for kind in SCALED {
        let (Shown::Speed(shown) | Shown::Percentage(shown) | Shown::Current(shown)) =
            shown(&list_v(16, 0), &raw_at(0), kind).unwrap().shown
        else {
            panic!("a code")
        };
        assert_eq!(shown.to_bits(), 0);
    }
}

/// A code is shown at every width, what is scaled at 16 alone.
#[test]
fn refusal_26() {
    let store = raw_at(0xFFFF);
    for width in 1..=64 {
        let list = list_v(width, 0);
        let code = ShownReading {
            shown: Shown::Code(0xFFFF_0000_0000_0000 >> (64 - width)),
            reason: 0,
        };
        assert_eq!(shown(&list, &store, Kind::Code), Ok(code));
        for kind in SCALED {
            match width {
                16 => assert_shows(shown(&list, &store, kind).unwrap(), kind, 0xFFFF),
                _ => assert_eq!(shown(&list, &store, kind), Err(refusal(26, 0))),
            }
        }
    }
}

/// What is too old, or was never heard, is replaced and then shown; 26 does not ask whether it is live.
#[test]
fn the_replacement_is_shown() {
    let (list, store) = (list_v(16, 64), raw_at(16_384));
    let speed = |now, vehicle| show(&list, Form::One, &store, now, vehicle, 0, Kind::Speed);
    let of = |speed, reason| {
        let shown = Shown::Speed(speed);
        Ok(ShownReading { shown, reason })
    };
    assert_eq!(speed(5_000, 1), of(256.0, 0));
    assert_eq!(speed(5_001, 1), of(1.0, 3));
    assert_eq!(speed(5_000, 63), of(1.0, 2));
    let code = ShownReading {
        shown: Shown::Code(64),
        reason: 3,
    };
    let late = show(&list, Form::One, &store, 5_001, 1, 0, Kind::Code);
    assert_eq!(late, Ok(code));
    let late = show(&list_v(17, 64), Form::One, &store, 5_001, 1, 0, Kind::Speed);
    assert_eq!(late, Err(refusal(26, 0)));
}

/// Every call here has a scaled kind of a signal that is not 16 bits wide: 26 is told when nothing else is.
#[test]
fn refusals_and_their_order() {
    let (list, store) = (list_v(15, 0), [0; STORE]);
    let speed = |list: &[u8], store: &[u8], vehicle, signal| {
        let answer = show(list, Form::One, store, 0, vehicle, signal, Kind::Speed);
        answer.unwrap_err()
    };
    let with = |at: usize, octet: u8| {
        let mut list = list.clone();
        list[at] = octet;
        list
    };
    assert_eq!(speed(&list[..23], &[], 0, 9), refusal(1, 22));
    assert_eq!(speed(&with(21, 1), &[], 0, 9), refusal(1, 20));
    assert_eq!(speed(&with(1, 65), &[], 0, 9), refusal(2, 0));
    assert_eq!(speed(&with(20, 3), &[], 0, 9), refusal(2, 20));
    assert_eq!(speed(&with(6, 65), &[], 0, 9), refusal(3, 4));
    let more = [&list[..], &[0]].concat();
    assert_eq!(speed(&more, &[], 0, 9), refusal(4, 24));
    assert_eq!(speed(&list, &[], 0, 9), refusal(5, 0));
    assert_eq!(speed(&list, &store[1..], 1, 0), refusal(5, 0));
    assert_eq!(speed(&list, &store, 0, 9), refusal(6, 0));
    assert_eq!(speed(&list, &store, 64, 0), refusal(6, 0));
    assert_eq!(speed(&list, &store, 1, 1), refusal(11, 0));
    assert_eq!(speed(&list, &store, 1, 1 << 32), refusal(11, 0));
    assert_eq!(speed(&[0; 8], &store, 1, 0), refusal(11, 0));
    assert_eq!(speed(&list, &store, 63, 0), refusal(26, 0));
    // A code is refused alike, but for 26.
    let code = |list: &[u8], store: &[u8], vehicle, signal| {
        show(list, Form::One, store, 0, vehicle, signal, Kind::Code)
    };
    assert_eq!(code(&list[..23], &[], 0, 9), Err(refusal(1, 22)));
    assert_eq!(code(&list, &[], 0, 9), Err(refusal(5, 0)));
    assert_eq!(code(&list, &store, 0, 9), Err(refusal(6, 0)));
    assert_eq!(code(&list, &store, 1, 1), Err(refusal(11, 0)));
    assert!(code(&list, &store, 1, 0).is_ok());
}

/// Two signals, the second of R2: the width is that of the signal's own entry, which stands two octets later.
#[test]
fn shown_in_form_2() {
    let store = raw_at(49_152);
    let percentage = |of, reason| {
        let shown = Shown::Percentage(of);
        Ok(ShownReading { shown, reason })
    };
    let refused = Err(refusal(26, 0));
    for (widths, wanted) in [
        ([16, 17], [percentage(300.0, 0), refused]),
        ([15, 16], [refused, percentage(0.0, 4)]),
    ] {
        let [first, second] = widths.map(|width| list_v(width, 0));
        let mut list = [&first[..20], &[0x40, 0xC0], &second[4..20], &[0; 6]].concat();
        (list[3], list[25]) = (2, 2);
        let answers = [0, 1].map(|signal| {
            let kind = Kind::Percentage;
            show(&list, Form::Two, &store, 0, 1, signal, kind)
        });
        assert_eq!(answers, wanted);
    }
}

/// Every signal of made lists as some kind, and those around 16 bits as every kind, for vehicles of made stores.
#[test]
fn made_lists_and_stores() {
    let mut r = Random::new(23);
    let kinds = [&[Kind::Code], &SCALED[..]].concat();
    let mut met = [[0; 9]; 5];
    for _ in 0..8_000 / EASE {
        let wide = r.of(&[16, 17, 20, 64]);
        let list = make::list_up_to(&mut r, false, wide);
        let octets = list.octets();
        let now = r.of(&[0, 50, 5_000, 4_000_000_000]);
        let store = make::store(&mut r, now);
        for (signal, s) in (0..).zip(&list.signals) {
            let (any, vehicle) = (r.below(5) as usize, r.within(1, 63));
            let kinds = match s.width {
                15..=17 => &kinds[..],
                _ => &kinds[any..=any],
            };
            let read = plain::read(&list, &store, now, vehicle, signal);
            for &kind in kinds {
                let answer = show(&octets, Form::One, &store, now, vehicle, signal, kind);
                if kind != Kind::Code && s.width != 16 {
                    assert_eq!(answer, Err(refusal(26, 0)));
                    continue;
                }
                let answer = answer.unwrap();
                assert_eq!(answer.reason, read.reason);
                assert_shows(answer, kind, read.value);
                met[kind as usize][usize::from(read.reason)] += 1;
            }
        }
    }
    let least = met.as_flattened().iter().min();
    assert!(least > Some(&(50 / EASE)), "{met:?}");
}
