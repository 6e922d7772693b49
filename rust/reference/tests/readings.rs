//! Every signal of a vehicle, and of a train, each as it is read alone.

mod support;

use reference::{read, read_all, read_train, Form, Reading, Refusal};
use support::plain::{self, Code, List, Signal};
use support::{make, plant, r1, refusal, widened, Random, EASE, L, SIGNAL_SIZE, STORE, VEHICLES};

/// Whose signals are read.
#[derive(Clone, Copy, Debug)]
enum Of {
    One(u64),
    /// From vehicle 1 on, up to this one.
    Train(u64),
}

/// Values and reasons.
type Readings = (Vec<u64>, Vec<u8>);

/// What is lent before a call: no reason, and no value that any of these tests gives.
fn junk(values: usize, reasons: usize) -> Readings {
    (vec![0xEEEE_EEEE_EEEE_EEEE; values], vec![0xEE; reasons])
}

/// What a call answers, and what it leaves in areas of these lengths.
fn asked(
    of: Of,
    list: &[u8],
    form: Form,
    store: &[u8],
    now: u32,
    lens: [usize; 2],
) -> (Result<(), Refusal>, Readings) {
    let (mut values, mut reasons) = junk(lens[0], lens[1]);
    let to = (&mut values[..], &mut reasons[..]);
    let answer = match of {
        Of::One(vehicle) => read_all(list, form, store, now, vehicle, to.0, to.1),
        Of::Train(last) => read_train(list, form, store, now, last, to.0, to.1),
    };
    (answer, (values, reasons))
}

/// Holds a call, in both forms of the list, to what is told in the plainest way, and to that a refusal writes nothing. Gives what is read.
fn held(
    of: Of,
    list: &[u8],
    store: &[u8],
    now: u32,
    lens: [usize; 2],
) -> Result<Readings, Refusal> {
    let vehicles = match of {
        Of::One(vehicle) => vehicle..=vehicle,
        Of::Train(last) => 1..=last,
    };
    let (mut values, mut reasons) = junk(lens[0], lens[1]);
    let to = (&mut values[..], &mut reasons[..]);
    let wanted = plain::read_all(list, SIGNAL_SIZE, store, now, vehicles, to.0, to.1);
    let wanted = (wanted, (values, reasons));
    assert_eq!(asked(of, list, Form::One, store, now, lens), wanted);
    if let Ok(counts) = plain::judge(list) {
        let wide = widened(list, counts.checks, &vec![[0x40, 0xC0]; counts.signals]);
        assert_eq!(asked(of, &wide, Form::Two, store, now, lens), wanted);
    }
    let (answer, after) = wanted;
    assert!(answer.is_ok() || after == junk(lens[0], lens[1]), "{of:?}");
    answer.map(|()| after)
}

/// As many values and reasons as there must be.
fn fitting(of: Of, list: &[u8]) -> [usize; 2] {
    let signals = plain::judge(list).map_or(0, |counts| counts.signals);
    let vehicles = match of {
        Of::One(_) => 1,
        Of::Train(last) => last as usize,
    };
    [signals * vehicles; 2]
}

/// All there is to read, into areas that fit.
fn all(of: Of, list: &[u8], store: &[u8], now: u32) -> Readings {
    held(of, list, store, now, fitting(of, list)).unwrap()
}

/// Signals of four bits from R1 octet 54 on, each with this known code or none, and a replacement by its number.
fn nibbles(known: &[Option<u64>]) -> List {
    let signal = |number: u64| Signal {
        start: 8 * 53 + 4 * number,
        width: 4,
        kind: 1,
        check: 0,
        since: 1,
        limit: 5_000,
        replacement: 15 - number,
    };
    let codes = (0..).zip(known).filter_map(|(signal, &code)| {
        code.map(|code| Code {
            signal,
            low: code,
            high: code,
        })
    });
    List {
        signals: (0..known.len() as u64).map(signal).collect(),
        codes: codes.collect(),
        ..List::default()
    }
}

/// An R1 of version 1 with these octets from 54 on.
fn saying(octets: &[u8]) -> [u8; 128] {
    let mut telegram = r1(0, 0);
    telegram[53..][..octets.len()].copy_from_slice(octets);
    telegram
}

/// Each reason, of L.
#[test]
fn every_reason() {
    let mut store = vec![0; STORE];
    let (mut newer, mut r2) = (L, r1(0x10, 0x40));
    newer[11] = 2;
    r2[0] = 0x12;
    for (list, telegram, now, value, reason) in [
        (L, r1(0x10, 0x40), 5_000, 4, 0),
        (L, r1(0x20, 0x40), 5_000, 4, 1),
        (L, r1(0x10, 0x40), 5_001, 0, 3),
        (L, r2, 5_000, 0, 4),
        (newer, r1(0x10, 0x40), 5_000, 0, 5),
        (L, r1(0x00, 0x40), 5_000, 0, 6),
        (L, r1(0x30, 0x40), 5_000, 0, 7),
        (L, r1(0x10, 0x70), 5_000, 0, 8),
    ] {
        plant(&mut store, 2, 1, 0, &telegram);
        let one = all(Of::One(2), &list, &store, now);
        assert_eq!(one, (vec![value], vec![reason]));
        let train = all(Of::Train(3), &list, &store, now);
        assert_eq!(train, (vec![0, value, 0], vec![2, reason, 2]));
    }
}

/// Vehicle after vehicle, and of each the signals in their order: the low bits of a value say the vehicle, the high ones the signal.
#[test]
fn in_order() {
    let list = List {
        signals: (0..5)
            .map(|number| Signal {
                start: 320 + 70 * number,
                width: 64,
                kind: 1,
                check: 0,
                since: 1,
                limit: 0,
                replacement: 0,
            })
            .collect(),
        ..List::default()
    };
    let said = |vehicle: u64, number: u64| (number + 1) << 60 | vehicle;
    let mut store = vec![0; STORE];
    for vehicle in 1..=VEHICLES as u64 {
        let mut telegram = r1(0, 0);
        for (number, s) in (0..).zip(&list.signals) {
            let value = said(vehicle, number);
            plain::put(&mut telegram, s.start as usize, 64, value);
        }
        plant(&mut store, vehicle as usize, 1, 0, &telegram);
    }
    let of = |vehicle: u64| (0..5).map(move |number| said(vehicle, number));
    for last in 1..=VEHICLES as u64 {
        let (values, reasons) = all(Of::Train(last), &list.octets(), &store, 9);
        assert_eq!(values, (1..=last).flat_map(of).collect::<Vec<u64>>());
        assert_eq!(reasons, vec![0; 5 * last as usize]);
        let (values, reasons) = all(Of::One(last), &list.octets(), &store, 9);
        assert_eq!(values, of(last).collect::<Vec<u64>>());
        assert_eq!(reasons, [0; 5]);
    }
}

/// Signals that know one code among such that know all: each of four is of either kind and says its code or another, and so do the vehicles
/// before and behind.
#[test]
fn codes_of_each_signal() {
    for which in 0..16 {
        let known = [0, 1, 2, 3].map(|n| (which >> n & 1 == 1).then_some(3 + n));
        let list = nibbles(&known).octets();
        for right in 0..16u64 {
            let says = |n: u64| (if right >> n & 1 == 1 { 3 + n } else { 12 + n }) as u8;
            let octets = [says(0) << 4 | says(1), says(2) << 4 | says(3)];
            let mut store = vec![0; STORE];
            plant(&mut store, 1, 1, 0, &saying(&octets));
            plant(&mut store, 2, 1, 0, &saying(&[0x34, 0x56]));
            plant(&mut store, 3, 1, 0, &saying(&octets));
            let reason = |n: u64| match known[n as usize] {
                Some(code) if code != says(n).into() => 8,
                _ => 0,
            };
            let reasons = [0, 1, 2, 3].map(reason);
            let (_, given) = all(Of::Train(3), &list, &store, 0);
            assert_eq!(given, [reasons, [0; 4], reasons].concat());
            let (values, given) = all(Of::One(3), &list, &store, 0);
            assert_eq!(given, reasons);
            for n in 0..4 {
                let live = reasons[n as usize] == 0;
                let value = if live { says(n).into() } else { 15 - n };
                assert_eq!(values[n as usize], value);
            }
        }
    }
}

/// A list of nothing has nothing to read, of anybody.
#[test]
fn no_signal() {
    let store = [0xFF; STORE];
    for vehicle in 1..=VEHICLES as u64 {
        for of in [Of::One(vehicle), Of::Train(vehicle)] {
            assert_eq!(all(of, &[0; 8], &store, 0), (vec![], vec![]));
            for lens in [[0, 1], [1, 0], [1, 1], [vehicle as usize; 2]] {
                let refused = held(of, &[0; 8], &store, 0, lens);
                assert_eq!(refused, Err(refusal(13, 0)));
            }
        }
    }
}

/// Each length of both areas, up to twice what it must be.
#[test]
fn lengths() {
    let list = nibbles(&[None, Some(4)]).octets();
    let mut store = vec![0; STORE];
    plant(&mut store, 1, 1, 0, &saying(&[0x44]));
    for (of, fits) in [
        (Of::One(1), 2),
        (Of::One(63), 2),
        (Of::Train(1), 2),
        (Of::Train(2), 4),
        (Of::Train(5), 10),
    ] {
        for lens in (0..=2 * fits).flat_map(|v| (0..=2 * fits).map(move |r| [v, r])) {
            let answer = held(of, &list, &store, 0, lens);
            match lens == [fits; 2] {
                true => assert!(answer.is_ok()),
                false => assert_eq!(answer, Err(refusal(13, 0))),
            }
        }
    }
    // As for one vehicle less, and for one more.
    for last in [1, 2, 62, 63] {
        for fits in [last as usize - 1, last as usize + 1] {
            let answer = held(Of::Train(last), &list, &store, 0, [2 * fits; 2]);
            assert_eq!(answer, Err(refusal(13, 0)));
        }
    }
}

/// Vehicles that are none, also those that are one once they are cut to fewer bits.
const NOBODY: [u64; 8] = [0, 64, 65, 255, 256 + 1, (1 << 32) + 1, 1 << 63, u64::MAX];

#[test]
fn refusals_and_their_order() {
    let store = [0; STORE];
    let list = nibbles(&[None, None]).octets();
    let mut broken = list.clone();
    broken[4 + 5] = 0;
    let more = [&list[..], &[0]].concat();
    let cut = &list[..list.len() - 1];
    for at in [1, 63].into_iter().chain(NOBODY) {
        for of in [Of::One(at), Of::Train(at)] {
            for lens in [[0, 0], [2, 2], [2, 3], [1, 2], [126, 126]] {
                let check = |list: &[u8], store: &[u8]| held(of, list, store, 0, lens);
                for store in [&[][..], &store[1..], &store] {
                    assert_eq!(check(cut, store), Err(refusal(1, 38)));
                    assert_eq!(check(&[0, 65], store), Err(refusal(2, 0)));
                    assert_eq!(check(&broken, store), Err(refusal(3, 4)));
                    assert_eq!(check(&more, store), Err(refusal(4, 40)));
                }
                for len in [0, 1, 8_379, STORE - 1, STORE + 1] {
                    assert_eq!(check(&list, &vec![0; len]), Err(refusal(5, 0)));
                }
                if NOBODY.contains(&at) {
                    assert_eq!(check(&list, &store), Err(refusal(6, 0)));
                } else if lens != fitting(of, &list) {
                    assert_eq!(check(&list, &store), Err(refusal(13, 0)));
                } else {
                    assert!(check(&list, &store).is_ok());
                }
            }
        }
    }
}

/// Made lists and stores: whole trains, and one of their vehicles, signal by signal.
#[test]
fn made_trains() {
    let mut r = Random::new(36);
    let mut met = [0; 9];
    for round in 0..1_000 / EASE {
        let list = make::list(&mut r, round % 50 == 0);
        let octets = list.octets();
        let now = r.of(&[0, 50, 5_000, 4_000_000_000]);
        let store = make::store(&mut r, now);
        let last = r.of(&[1, 2, 3, 62, 63]);
        let (values, reasons) = all(Of::Train(last), &octets, &store, now);
        reasons.iter().for_each(|&n| met[usize::from(n)] += 1);
        let signals = list.signals.len();
        for vehicle in [1, last, r.within(1, last)] {
            let from = signals * (vehicle as usize - 1);
            let of_train = (&values[from..][..signals], &reasons[from..][..signals]);
            let (values, reasons) = all(Of::One(vehicle), &octets, &store, now);
            assert_eq!((&values[..], &reasons[..]), of_train);
            for number in 0..signals {
                let (value, reason) = (values[number], reasons[number]);
                let alone = read(&octets, Form::One, &store, now, vehicle, number as u64);
                assert_eq!(alone, Ok(Reading { value, reason }));
            }
        }
    }
    assert!(met.iter().all(|&count| count > 1_000 / EASE), "{met:?}");
}

/// Made lists, of which some are spoiled, with any vehicle and areas of about the right length.
#[test]
fn made_faults() {
    let mut r = Random::new(361);
    let mut met = [0; 14];
    for _ in 0..10_000 / EASE {
        let list = make::list(&mut r, false);
        let octets = match r.one_in(3) {
            true => make::spoiled(&mut r, &list),
            false => list.octets(),
        };
        let mut store = make::store(&mut r, 50);
        if r.one_in(8) {
            store.pop();
        }
        let at = match r.one_in(8) {
            true => r.of(&NOBODY),
            false => r.within(1, 63),
        };
        let of = r.of(&[Of::One(at), Of::Train(at)]);
        let vehicles = match of {
            Of::Train(1..=63) => at as usize,
            _ => 1,
        };
        let lens = [0, 1].map(|_| {
            let fits = vehicles * list.signals.len();
            let near = [fits + 1, fits.saturating_sub(1), list.signals.len(), 0];
            let near = r.of(&near);
            if r.one_in(6) {
                near
            } else {
                fits
            }
        });
        let answer = held(of, &octets, &store, 50, lens);
        met[answer.map_or_else(|refusal| refusal.number, |_| 0) as usize] += 1;
    }
    for number in [0, 1, 2, 3, 4, 5, 6, 13] {
        assert!(met[number] > 50 / EASE, "{number}: {met:?}");
    }
}
