mod support;

use reference::{compose, read, take, Form};
use support::plain::{self, List, Signal};
use support::{make, refusal, Random, EASE, L, STORE};

#[test]
fn list_l_composed() {
    let mut out = [0xEE; 128];
    assert_eq!(compose(&L, Form::One, 1, &[4], &[1], &mut out), Ok(()));
    let mut expected = [0; 128];
    (expected[0], expected[1], expected[40], expected[53]) = (0x11, 1, 0x10, 0x40);
    assert_eq!(out, expected);
    // R2 does not carry the signal, but the check lies in its length.
    assert_eq!(
        compose(&L, Form::One, 2, &[u64::MAX], &[3], &mut out),
        Ok(())
    );
    let mut expected = [0; 128];
    (expected[0], expected[1], expected[40]) = (0x12, 1, 0x30);
    assert_eq!(out, expected);
    // R3 carries neither, and tests neither.
    let mut out = [0xEE; 40];
    assert_eq!(
        compose(&L, Form::One, 3, &[u64::MAX], &[255], &mut out),
        Ok(())
    );
    let mut expected = [0; 40];
    (expected[0], expected[1]) = (0x13, 1);
    assert_eq!(out, expected);
}

#[test]
fn refusals_and_their_order() {
    let check = |list: &[u8], kind: u64, values: &[u64], marks: &[u8], length: usize| {
        let mut out = vec![0xEE; length];
        let answer = compose(list, Form::One, kind, values, marks, &mut out);
        assert!(answer.is_ok() || out.iter().all(|&octet| octet == 0xEE));
        answer
    };
    assert_eq!(check(&L[..43], 0, &[], &[], 0), Err(refusal(1, 36)));
    for kind in [0, 4, 257, u64::MAX, (1 << 32) + 1] {
        assert_eq!(check(&L, kind, &[], &[], 0), Err(refusal(9, 0)));
    }
    for (values, marks) in [(0, 1), (1, 0), (2, 1), (1, 2), (0, 0)] {
        assert_eq!(
            check(&L, 1, &vec![16; values], &vec![4; marks], 0),
            Err(refusal(13, 0))
        );
    }
    assert_eq!(check(&L, 1, &[16], &[4], 0), Err(refusal(14, 0)));
    assert_eq!(check(&L, 2, &[16], &[4], 0), Err(refusal(14, 0)));
    assert_eq!(check(&L, 3, &[16], &[4], 0), Err(refusal(16, 0)));
    assert_eq!(check(&L, 1, &[16], &[3], 0), Err(refusal(15, 0)));
    assert_eq!(check(&L, 1, &[7], &[3], 128), Err(refusal(15, 0)));
    assert_eq!(check(&L, 1, &[u64::MAX], &[3], 128), Err(refusal(15, 0)));
    assert_eq!(check(&L, 1, &[6], &[3], 127), Err(refusal(16, 0)));
    assert_eq!(check(&L, 1, &[6], &[3], 40), Err(refusal(16, 0)));
    assert_eq!(check(&L, 3, &[6], &[3], 128), Err(refusal(16, 0)));
    assert_eq!(check(&L, 2, &[16], &[3], 128), Ok(()));
}

#[test]
fn checks_not_named_and_at_the_edge_are_written() {
    let list = List {
        checks: vec![16, 318, 320, 1022],
        ..List::default()
    }
    .octets();
    let mut out = [0; 40];
    assert_eq!(
        compose(&list, Form::One, 3, &[], &[1, 2, 4, 4], &mut out),
        Ok(())
    );
    assert_eq!((out[2], out[39]), (0x40, 0x02));
    let mut out = [0; 40];
    assert_eq!(
        compose(&list, Form::One, 3, &[], &[1, 4, 0, 0], &mut out),
        Err(refusal(14, 0))
    );
    let mut out = [0; 128];
    assert_eq!(
        compose(&list, Form::One, 1, &[], &[1, 2, 3, 3], &mut out),
        Ok(())
    );
    assert_eq!(
        (out[2], out[39], out[40], out[127]),
        (0x40, 0x02, 0xC0, 0x03)
    );
}

#[test]
fn the_first_signal_at_fault() {
    let s = |start, kind| Signal {
        start,
        width: 4,
        kind,
        check: 0,
        since: 7,
        limit: 0,
        replacement: 0,
    };
    let list = List {
        signals: vec![s(16, 0), s(320, 1), s(330, 1), s(320, 2)],
        ..List::default()
    }
    .octets();
    let mut out = [0; 128];
    assert_eq!(
        compose(&list, Form::One, 1, &[0, 16, 16, 16], &[], &mut out),
        Err(refusal(15, 1))
    );
    assert_eq!(
        compose(&list, Form::One, 2, &[0, 16, 16, 16], &[], &mut out),
        Err(refusal(15, 3))
    );
    assert_eq!(
        compose(&list, Form::One, 2, &[0, 16, 16, 15], &[], &mut out),
        Ok(())
    );
    assert_eq!((out[0], out[1], out[2], out[40]), (0x12, 7, 0, 0xF0));
}

/// C-15: "at width 64 every value fits", and in each narrower field 2^width does not.
#[test]
fn fields_of_up_to_64_bits() {
    for width in 1..=64 {
        let list = List {
            signals: vec![Signal {
                start: 425,
                width,
                kind: 1,
                check: 0,
                since: 1,
                limit: 0,
                replacement: 0,
            }],
            ..List::default()
        }
        .octets();
        let mut out = [0; 128];
        let mut answer = |value| compose(&list, Form::One, 1, &[value], &[], &mut out);
        assert_eq!(answer(u64::MAX >> (64 - width)), Ok(()));
        let past = answer((u64::MAX >> (64 - width)).wrapping_add(1));
        let expected = if width < 64 {
            Err(refusal(15, 0))
        } else {
            Ok(())
        };
        assert_eq!(past, expected, "{width}");
    }
}

#[test]
fn made_lists() {
    let mut r = Random::new(8);
    let mut met = [0; 17];
    for round in 0..15_000 / EASE {
        let list = make::list(&mut r, round % 100 == 0);
        let octets = list.octets();
        let kind = if r.one_in(20) {
            r.of(&[0, 4])
        } else {
            r.within(1, 3)
        };
        let mut values = make::values(&mut r, &list);
        let mut marks: Vec<u8> = list.checks.iter().map(|_| r.below(4) as u8).collect();
        for _ in 0..r.below(3) {
            let at = r.below(1 + values.len() as u64) as usize;
            if let Some(value) = values.get_mut(at) {
                *value = r.of(&[0, 1, 16, 255, 65536, 1 << 48, 1 << 49, 1 << 63, u64::MAX]);
            }
        }
        if r.one_in(4) {
            let at = r.below(1 + marks.len() as u64) as usize;
            if let Some(mark) = marks.get_mut(at) {
                *mark = r.of(&[4, 5, 255]);
            }
        }
        match r.below(40) {
            0 => values.push(0),
            1 => marks.push(0),
            2 => drop(values.pop()),
            3 => drop(marks.pop()),
            _ => {}
        }
        let length = if kind == 3 { 40 } else { 128 };
        let length = if r.one_in(10) {
            r.of(&[0, 39, 40, 41, 127, 128, 129])
        } else {
            length
        };
        let before = r.octets(length);
        let (mut ours, mut expected) = (before.clone(), before);
        let answer = compose(&octets, Form::One, kind, &values, &marks, &mut ours);
        assert_eq!(
            answer,
            plain::compose(&list, kind, &values, &marks, &mut expected)
        );
        assert_eq!(ours, expected);
        met[answer.map_or_else(|refusal| usize::from(refusal.number), |()| 0)] += 1;

        // What was composed is taken and read back, where its mark is ok or forced.
        if answer.is_ok() && round % 10 == 0 {
            let mut store = vec![0; STORE];
            take(&mut store, 9, 77, &ours).unwrap();
            for (i, s) in list.signals.iter().enumerate() {
                let reading = read(&octets, Form::One, &store, 77, 9, i as u64).unwrap();
                let mark = s
                    .check
                    .checked_sub(1)
                    .map_or(1, |check| marks[check as usize]);
                let reason = match mark {
                    _ if s.kind != 0 && s.kind != kind => 4,
                    0 => 6,
                    3 => 7,
                    _ => mark - 1,
                };
                let value = if reason < 2 { values[i] } else { s.replacement };
                assert_eq!((reading.value, reading.reason), (value, reason));
            }
        }
    }
    for number in [0, 9, 13, 14, 15, 16] {
        assert!(met[number] > 200 / EASE, "{met:?}");
    }
}
