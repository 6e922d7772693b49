//! C-24: a telegram that was heard, composed anew as it is read.

mod support;

use reference::{compose, read, relay, take, Form, Refusal};
use support::plain::{self, Code, List, Signal};
use support::{
    make, plant, r1, refusal, Random, EASE, HEAD, L, SIGNAL_SIZE, SLOT, STORE, TELEGRAM,
};

/// The octets that are not 0, by their numbers, from 1.
fn set(telegram: &[u8]) -> Vec<(usize, u8)> {
    let numbered = (1..).zip(telegram.iter().copied());
    numbered.filter(|&(_, octet)| octet != 0).collect()
}

/// What becomes of a telegram that vehicle 1 sent at 0.
fn relayed(list: &[u8], telegram: &[u8], now: u32) -> Result<Vec<(usize, u8)>, Refusal> {
    let mut store = vec![0; STORE];
    plant(&mut store, 1, 1, 0, telegram);
    let mut out = vec![0xEE; telegram.len()];
    relay(list, Form::One, &store, now, 1, &mut out)?;
    Ok(set(&out))
}

/// Under check 41 2/3 the signal of L, and behind it one of four bits since version 3, with 1,000 ms and replacement 9.
fn two_under_one_check() -> List {
    let signal = |start, since, limit, replacement| Signal {
        start,
        width: 4,
        kind: 1,
        check: 1,
        since,
        limit,
        replacement,
    };
    let known = |low, high| Code {
        signal: 0,
        low,
        high,
    };
    List {
        checks: vec![322],
        signals: vec![signal(424, 1, 5_000, 0), signal(428, 3, 1_000, 9)],
        codes: vec![known(0, 6), known(15, 15)],
        routes: vec![],
    }
}

/// An R1 of a version with the octets of the list above.
fn r1_of(version: u8, octet_41: u8, octet_54: u8) -> [u8; TELEGRAM] {
    let mut telegram = r1(octet_41, octet_54);
    telegram[1] = version;
    telegram
}

/// Composed under a list that extends L, relayed under L, and read under the other again: a signal that L has not is not passed on.
#[test]
fn a_trip() {
    let mut wider = two_under_one_check();
    wider.codes.clear();
    let wider = wider.octets();
    for (mark, reason) in [(1, 0), (2, 1)] {
        let mut store = vec![0; STORE];
        let mut telegram = [0; TELEGRAM];
        compose(&wider, Form::One, 1, &[4, 7], &[mark], &mut telegram).unwrap();
        take(&mut store, 1, 1_000, &telegram).unwrap();
        relay(&L, Form::One, &store, 6_000, 1, &mut telegram).unwrap();
        take(&mut store, 63, 90_000, &telegram).unwrap();
        let [first, second] =
            [0, 1].map(|signal| read(&wider, Form::One, &store, 90_500, 63, signal).unwrap());
        assert_eq!((first.value, first.reason), (4, reason));
        assert_eq!((second.value, second.reason), (9, 5));
    }
}

/// "otherwise the mark it read", and of what is not read live the replacement and error.
#[test]
fn live_and_replaced() {
    let head = [(1, 0x11), (2, 1)];
    for (octet_41, octet_54, live) in [
        (0x10, 0x40, true),
        (0x20, 0x40, true),
        (0x10, 0xF0, true),
        (0x10, 0x70, false),
        (0x20, 0xE0, false),
        (0x00, 0x40, false),
        (0x30, 0x40, false),
    ] {
        for now in [5_000, 5_001] {
            let wanted = match live && now == 5_000 {
                true => [&head[..], &[(41, octet_41), (54, octet_54)]].concat(),
                false => head.to_vec(),
            };
            assert_eq!(relayed(&L, &r1(octet_41, octet_54), now), Ok(wanted));
        }
    }
}

/// Bits that the list does not know are 0, and the version is the list's.
#[test]
fn what_the_list_does_not_know_stays_behind() {
    let mut telegram = [0xFF; TELEGRAM];
    telegram[0] = 0x11;
    telegram[40] = 0xDF;
    let passed_on = vec![(1, 0x11), (2, 1), (41, 0x10), (54, 0xF0)];
    for version in [0, 1, 2, 255] {
        telegram[1] = version;
        assert_eq!(relayed(&L, &telegram, 0), Ok(passed_on.clone()));
    }
    // A newer list than the telegram's: the version is the list's too.
    let list = two_under_one_check().octets();
    let old = r1_of(2, 0x10, 0x47);
    assert_eq!(
        relayed(&list, &old, 0),
        Ok(vec![(1, 0x11), (2, 3), (54, 0x49)])
    );
}

/// "any signal under it that the type carries could not be read live": by its own limit, its since-version or its code, and with it goes what
/// the other signal says, which is passed on without being vouched for.
#[test]
fn one_lost_signal_takes_the_other_with_it() {
    let list = two_under_one_check().octets();
    let octets = |telegram: &[u8], now| {
        let set = relayed(&list, telegram, now).unwrap();
        assert_eq!(set[..2], [(1, 0x11), (2, 3)]);
        set[2..].to_vec()
    };
    let both = r1_of(3, 0x20, 0x4F);
    assert_eq!(octets(&both, 1_000), [(41, 0x20), (54, 0x4F)]);
    assert_eq!(octets(&both, 1_001), [(54, 0x49)]);
    assert_eq!(octets(&both, 5_001), [(54, 0x09)]);
    assert_eq!(octets(&r1_of(2, 0x20, 0x4F), 0), [(54, 0x49)]);
    assert_eq!(octets(&r1_of(3, 0x20, 0x7F), 0), [(54, 0x0F)]);
    assert_eq!(octets(&r1_of(3, 0x00, 0x4F), 0), [(54, 0x09)]);
    assert_eq!(octets(&r1_of(3, 0x30, 0x4F), 0), [(54, 0x09)]);
    // A signal of R2 under the same check takes nothing with it.
    let mut mixed = two_under_one_check();
    mixed.signals[1].kind = 2;
    let set = relayed(&mixed.octets(), &r1_of(2, 0x20, 0x4F), 1_001).unwrap();
    assert_eq!(set[2..], [(41, 0x20), (54, 0x40)]);
    // Of two checks the other is not touched.
    let mut apart = two_under_one_check();
    apart.checks = vec![322, 324];
    apart.signals[1].check = 2;
    let set = relayed(&apart.octets(), &r1_of(3, 0x24, 0x7F), 0).unwrap();
    assert_eq!(set[2..], [(41, 0x04), (54, 0x0F)]);
}

/// "or if the type carries none under it": of a check that is another type's, and of one that no signal names.
#[test]
fn a_check_without_signals_is_error() {
    let mut list = two_under_one_check();
    list.checks = vec![16, 322, 324, 1022];
    list.signals[0].check = 2;
    list.signals[1] = Signal {
        kind: 2,
        check: 3,
        ..list.signals[1].clone()
    };
    let list = list.octets();
    let mut telegram = [0x55; TELEGRAM];
    for (head, passed_on) in [
        (0x11, vec![(41, 0x10), (54, 0x50)]),
        (0x12, vec![(41, 0x04), (54, 0x05)]),
    ] {
        telegram[0] = head;
        let set = relayed(&list, &telegram, 0).unwrap();
        assert_eq!(set, [&[(1, head), (2, 3)], &passed_on[..]].concat());
    }
    telegram[0] = 0x13;
    let set = relayed(&list, &telegram[..40], 0).unwrap();
    assert_eq!(set, [(1, 0x13), (2, 3)]);
    // A list of nothing passes on the type alone.
    assert_eq!(
        relayed(&[0; 8], &telegram[..40], 0),
        Ok(vec![(1, 0x13), (2, 1)])
    );
}

/// What a common check and its signals say goes on in every type, up to the last bits that R3 has.
#[test]
fn every_type() {
    let mut list = two_under_one_check();
    list.checks = vec![318];
    for (number, s) in list.signals.iter_mut().enumerate() {
        (s.kind, s.start) = (0, 306 + 4 * number as u64);
    }
    let list = list.octets();
    for (head, length) in [(0x11, 128), (0x12, 128), (0x13, 40)] {
        let mut telegram = vec![0xAA; length];
        telegram[0] = head;
        // The signals say 6 and 10, the check is forced.
        (telegram[38], telegram[39]) = (0b1101_1010, 0b1011_1110);
        let wanted = vec![(1, head), (2, 3), (39, 0b0001_1010), (40, 0b1000_0010)];
        assert_eq!(relayed(&list, &telegram, 0), Ok(wanted));
    }
}

/// An expired slot has a type: signals with a limit are too old there, those with none are read as before.
#[test]
fn an_expired_slot() {
    let mut store = vec![0; STORE];
    plant(&mut store, 1, 2, 0, &r1(0x10, 0x40));
    let mut out = [0xEE; TELEGRAM];
    assert_eq!(relay(&L, Form::One, &store, 0, 1, &mut out), Ok(()));
    assert_eq!(set(&out), [(1, 0x11), (2, 1)]);
    let mut list = L;
    list[12..16].fill(0);
    assert_eq!(relay(&list, Form::One, &store, 0, 1, &mut out), Ok(()));
    assert_eq!(set(&out), [(1, 0x11), (2, 1), (41, 0x10), (54, 0x40)]);
}

/// A slot that was never heard, or has the head of no R-telegram, has no type.
#[test]
fn refusal_9() {
    let mut store = vec![0; STORE];
    let mut telegram = r1(0x10, 0x40);
    for heard in 0..=255u8 {
        for head in 0..=255u8 {
            telegram[0] = head;
            plant(&mut store, 7, heard, 0, &telegram);
            let mut out = [0xEE; TELEGRAM];
            let answer = relay(&L, Form::One, &store, 0, 7, &mut out);
            match (heard, head) {
                (1 | 2, 0x11 | 0x12) => assert_eq!((answer, out[0]), (Ok(()), head)),
                (1 | 2, 0x13) => assert_eq!(answer, Err(refusal(16, 0))),
                _ => assert_eq!(answer, Err(refusal(9, 0))),
            }
            assert!(answer.is_ok() || out == [0xEE; TELEGRAM]);
        }
    }
}

/// The first signal whose replacement goes out and is not known; one that stays at home is not tested.
#[test]
fn refusal_15() {
    let mut list = two_under_one_check();
    list.codes.push(Code {
        signal: 1,
        low: 0,
        high: 8,
    });
    let lost = Err(refusal(15, 1));
    let both = r1_of(3, 0x10, 0x48);
    let live = vec![(1, 0x11), (2, 3), (41, 0x10), (54, 0x48)];
    assert_eq!(relayed(&list.octets(), &both, 1_000), Ok(live));
    assert_eq!(relayed(&list.octets(), &both, 1_001), lost);
    assert_eq!(relayed(&list.octets(), &r1_of(2, 0x10, 0x48), 0), lost);
    assert_eq!(relayed(&list.octets(), &r1_of(3, 0x10, 0x49), 0), lost);
    assert_eq!(relayed(&list.octets(), &r1_of(3, 0x00, 0x48), 0), lost);
    assert_eq!(relayed(&list.octets(), &r1_of(3, 0x30, 0x48), 0), lost);
    // Of two at fault the first.
    list.signals[0].replacement = 7;
    assert_eq!(
        relayed(&list.octets(), &r1_of(3, 0x00, 0x48), 0),
        Err(refusal(15, 0))
    );
    assert_eq!(relayed(&list.octets(), &both, 1_001), lost);
    // R2 carries neither.
    let mut r2 = both;
    r2[0] = 0x12;
    assert_eq!(
        relayed(&list.octets(), &r2, 1_001),
        Ok(vec![(1, 0x12), (2, 3)])
    );
}

#[test]
fn refusals_and_their_order() {
    let mut list = L.to_vec();
    list[21] = 7;
    let mut store = vec![0; STORE];
    plant(&mut store, 1, 1, 0, &r1(0x10, 0x40));
    plant(&mut store, 2, 1, 0, &r1(0x00, 0x40));
    let check = |list: &[u8], store: &[u8], vehicle, length: usize| {
        let mut out = vec![0xEE; length];
        let answer = relay(list, Form::One, store, 0, vehicle, &mut out);
        assert!(answer.is_ok() || out.iter().all(|&octet| octet == 0xEE));
        answer
    };
    assert_eq!(check(&list[..43], &[], 0, 0), Err(refusal(1, 36)));
    assert_eq!(
        check(&[&[0, 65], &list[2..]].concat(), &[], 0, 0),
        Err(refusal(2, 0))
    );
    let mut broken = list.clone();
    broken[11] = 0;
    assert_eq!(check(&broken, &[], 0, 0), Err(refusal(3, 6)));
    assert_eq!(
        check(&[&list[..], &[0]].concat(), &[], 0, 0),
        Err(refusal(4, 44))
    );
    assert_eq!(check(&list, &[], 0, 0), Err(refusal(5, 0)));
    assert_eq!(check(&list, &store[1..], 1, 128), Err(refusal(5, 0)));
    for vehicle in [0, 64, 257, u64::MAX, (1 << 32) + 1] {
        assert_eq!(check(&list, &store, vehicle, 0), Err(refusal(6, 0)));
    }
    assert_eq!(check(&list, &store, 3, 0), Err(refusal(9, 0)));
    assert_eq!(check(&list, &store, 63, 128), Err(refusal(9, 0)));
    assert_eq!(check(&list, &store, 2, 0), Err(refusal(15, 0)));
    assert_eq!(check(&list, &store, 2, 128), Err(refusal(15, 0)));
    for length in [0, 39, 40, 41, 127, 129, 256] {
        assert_eq!(check(&list, &store, 1, length), Err(refusal(16, 0)));
    }
    assert_eq!(check(&list, &store, 1, 128), Ok(()));
    // R3 has 40 octets, of which none is L's.
    plant(&mut store, 1, 1, 0, &[&[0x13], &r1(0, 0)[1..40]].concat());
    for length in [0, 39, 41, 127, 128, 129] {
        assert_eq!(check(&list, &store, 1, length), Err(refusal(16, 0)));
    }
    assert_eq!(check(&list, &store, 1, 40), Ok(()));
}

/// In form 2, with serial numbers that say nothing to it.
#[test]
fn relayed_in_form_2() {
    let plain = two_under_one_check().octets();
    let (before, entries) = plain.split_at(2 + 2 + 2);
    let (first, rest) = entries.split_at(SIGNAL_SIZE);
    let (second, behind) = rest.split_at(SIGNAL_SIZE);
    let wide = [before, first, &[0x40, 0xC0], second, &[0xFF, 0xFF], behind].concat();
    let mut store = vec![0; STORE];
    for (octet_54, now) in [(0x4F, 0), (0x4F, 1_001), (0x7F, 0)] {
        plant(&mut store, 1, 1, 0, &r1_of(3, 0x20, octet_54));
        let mut out = [0xEE; TELEGRAM];
        assert_eq!(relay(&wide, Form::Two, &store, now, 1, &mut out), Ok(()));
        let plainly = relayed(&plain, &r1_of(3, 0x20, octet_54), now);
        assert_eq!(Ok(set(&out)), plainly);
    }
}

/// Some vehicles of made stores, under made lists.
#[test]
fn made_lists_and_stores() {
    let mut r = Random::new(24);
    let mut met = [0; 17];
    let (mut kept, mut lost) = (0, 0);
    for round in 0..6_000 / EASE {
        let mut list = make::list(&mut r, round % 100 == 0);
        if !r.one_in(4) {
            make::know_replacements(&mut r, &mut list);
        }
        let octets = list.octets();
        let now = r.of(&[0, 50, 5_000, 4_000_000_000]);
        let store = make::store(&mut r, now);
        for vehicle in [1, 63, r.within(2, 62)] {
            let heard = &store[SLOT * (vehicle as usize - 1) + HEAD..];
            let length = match (heard[0] & 15, r.one_in(10)) {
                (_, true) => r.of(&[0, 39, 40, 41, 127, 128, 129]),
                (3, _) => 40,
                _ => 128,
            };
            let before = r.octets(length);
            let (mut ours, mut expected) = (before.clone(), before);
            let answer = relay(&octets, Form::One, &store, now, vehicle, &mut ours);
            assert_eq!(
                answer,
                plain::relay(&list, &store, now, vehicle, &mut expected)
            );
            assert_eq!(ours, expected);
            met[answer.map_or_else(|refusal| usize::from(refusal.number), |()| 0)] += 1;
            for &check in list.checks.iter().filter(|_| answer.is_ok()) {
                if check as usize + 2 <= 8 * length {
                    let [is, was] = [&ours, heard].map(|of| plain::get(of, check as usize, 2));
                    kept += usize::from(is != 0);
                    lost += usize::from(is == 0 && (was == 1 || was == 2));
                }
            }
        }
    }
    for number in [0, 9, 15, 16] {
        assert!(met[number] > 200 / EASE, "{met:?}");
    }
    assert!(kept.min(lost) > 1_000 / EASE, "{kept} kept, {lost} lost");
}
