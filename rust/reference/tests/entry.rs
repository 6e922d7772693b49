mod support;

use reference::{find_signal, judge, signal_entry, Entry, Form};
use support::plain::{List, Signal};
use support::{make, refusal, Random, EASE, L};

/// The entry of a signal, told plainly.
fn plain(list: &List, s: &Signal) -> Entry {
    Entry {
        start: s.start as u16,
        width: s.width as u8,
        kind: s.kind as u8,
        check: s.check as u8,
        since: s.since as u8,
        limit: s.limit as u32,
        replacement: s.replacement,
        place: list.place(s).unwrap_or(0) as u16,
    }
}

#[test]
fn the_signal_of_l() {
    let entry = Entry {
        start: 424,
        width: 4,
        kind: 1,
        check: 1,
        since: 1,
        limit: 5_000,
        replacement: 0,
        place: 322,
    };
    assert_eq!(signal_entry(&L, Form::One, 0), Ok(entry));
    assert_eq!(find_signal(&L, Form::One, 1, 424), Ok(0));
    for number in [1, 2, 256, 1 << 32, u64::MAX] {
        assert_eq!(signal_entry(&L, Form::One, number), Err(refusal(11, 0)));
    }
    // Another type, a start inside the field, numbers that are these once cut to fewer bits.
    for (kind, start) in [
        (0, 424),
        (2, 424),
        (1, 423),
        (1, 425),
        (0, 1024 + 424),
        (1 << 8 | 1, 424),
        (1 << 32 | 1, 424),
        (1, 1 << 16 | 424),
        (1, 1 << 32 | 424),
        (u64::MAX, u64::MAX),
    ] {
        assert_eq!(find_signal(&L, Form::One, kind, start), Err(refusal(11, 0)));
    }
}

#[test]
fn every_signal_of_made_lists() {
    let mut r = Random::new(9);
    for round in 0..2_000 / EASE {
        let list = make::list(&mut r, round % 500 == 0);
        let octets = list.octets();
        for (number, s) in (0..).zip(&list.signals) {
            assert_eq!(
                signal_entry(&octets, Form::One, number),
                Ok(plain(&list, s))
            );
            assert_eq!(find_signal(&octets, Form::One, s.kind, s.start), Ok(number));
        }
        let past = list.signals.len() as u64;
        assert_eq!(signal_entry(&octets, Form::One, past), Err(refusal(11, 0)));
    }
}

#[test]
fn every_type_and_start_of_a_list() {
    let mut r = Random::new(10);
    let list = make::list(&mut r, true);
    let octets = list.octets();
    for kind in 0..=3 {
        for start in 0..=1_100 {
            let at = |s: &Signal| s.kind == kind && s.start == start;
            let found = list.signals.iter().position(at);
            let found = found.map(|number| number as u64).ok_or(refusal(11, 0));
            assert_eq!(find_signal(&octets, Form::One, kind, start), found);
        }
    }
}

#[test]
fn a_bad_list_is_refused_first() {
    let mut r = Random::new(11);
    for _ in 0..4_000 / EASE {
        let list = make::list(&mut r, false);
        let spoiled = make::spoiled(&mut r, &list);
        if let Err(refused) = judge(&spoiled, Form::One) {
            assert_eq!(signal_entry(&spoiled, Form::One, 999), Err(refused));
            assert_eq!(find_signal(&spoiled, Form::One, 9, 9), Err(refused));
        }
    }
}
