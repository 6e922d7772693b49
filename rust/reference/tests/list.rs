mod support;

use reference::{check_place, judge, Counts, Form};
use support::plain::{self, Code, List, Route, Signal};
use support::{make, refusal, Random, EASE, L, SIGNAL_SIZE};

fn signal(start: u64, width: u64, kind: u64) -> Signal {
    Signal {
        start,
        width,
        kind,
        check: 0,
        since: 1,
        limit: 0,
        replacement: 0,
    }
}

fn with(signals: &[Signal]) -> List {
    List {
        signals: signals.to_vec(),
        ..List::default()
    }
}

fn ok(list: &List) -> bool {
    let octets = list.octets();
    let answer = judge(&octets, Form::One);
    assert_eq!(answer, plain::judge(&octets));
    answer.is_ok()
}

#[test]
fn made_and_spoiled_lists() {
    let mut r = Random::new(2);
    let mut met = [0; 5];
    for round in 0..8_000 / EASE {
        let list = make::list(&mut r, round % 1000 == 0);
        let good = list.octets();
        assert_eq!(judge(&good, Form::One), plain::judge(&good));
        assert!(judge(&good, Form::One).is_ok());
        let spoiled = if r.one_in(2) {
            make::spoiled(&mut r, &list)
        } else {
            make::changed(&mut r, &list).octets()
        };
        let answer = judge(&spoiled, Form::One);
        assert_eq!(answer, plain::judge(&spoiled), "{spoiled:02X?}");
        met[answer.map_or_else(|refusal| usize::from(refusal.number), |_| 0)] += 1;
    }
    assert!(met.iter().all(|&count| count > 100 / EASE), "{met:?}");
}

#[test]
fn every_octet_of_l_changed() {
    for at in 0..L.len() {
        for octet in 0..=255 {
            let mut list = L;
            list[at] = octet;
            assert_eq!(judge(&list, Form::One), plain::judge(&list));
        }
    }
}

#[test]
fn every_head_of_a_list() {
    let mut r = Random::new(3);
    for _ in 0..20 {
        let list = make::list(&mut r, false).octets();
        for length in 0..list.len() {
            let answer = judge(&list[..length], Form::One);
            assert_eq!(answer, plain::judge(&list[..length]));
            assert_eq!(answer.unwrap_err().number, 1);
        }
    }
}

#[test]
fn counts_come_before_presence() {
    assert_eq!(judge(&[0], Form::One), Err(refusal(1, 0)));
    assert_eq!(judge(&[0, 65], Form::One), Err(refusal(2, 0)));
    assert_eq!(judge(&[0, 64], Form::One), Err(refusal(1, 0)));
    assert_eq!(judge(&[0, 0, 1, 1], Form::One), Err(refusal(2, 2)));
    assert_eq!(judge(&[0, 0, 1, 0], Form::One), Err(refusal(1, 2)));
    assert_eq!(judge(&[0, 0, 0, 0, 2, 1], Form::One), Err(refusal(2, 4)));
    assert_eq!(judge(&[0, 0, 0, 0, 2, 0], Form::One), Err(refusal(1, 4)));
    assert_eq!(
        judge(&[0, 0, 0, 0, 0, 0, 2, 1], Form::One),
        Err(refusal(2, 6))
    );
    assert_eq!(
        judge(&[0, 0, 0, 0, 0, 0, 2, 0], Form::One),
        Err(refusal(1, 6))
    );
    assert_eq!(
        judge(&[0, 0, 0, 0, 0, 0, 0, 0, 9], Form::One),
        Err(refusal(4, 8))
    );
    // A bad check comes before what is wrong further on.
    assert_eq!(judge(&[0, 1, 0, 15, 255], Form::One), Err(refusal(3, 2)));
    let empty = Counts {
        checks: 0,
        signals: 0,
        codes: 0,
        routes: 0,
        version: 1,
    };
    assert_eq!(judge(&[0; 8], Form::One), Ok(empty));
}

#[test]
fn the_longest_list() {
    let mut list = List {
        checks: (0..64).map(|i| 16 + 2 * i).collect(),
        ..List::default()
    };
    list.signals.extend((0..100).map(|i| signal(144 + i, 1, 0)));
    list.signals.extend((0..156).map(|i| Signal {
        since: 1 + i,
        ..signal(320 + 4 * i, 4, 1)
    }));
    list.codes.extend((100..256).flat_map(|signal| {
        (0..8).map(move |i| Code {
            signal,
            low: 2 * i,
            high: 2 * i,
        })
    }));
    list.codes.truncate(512);
    list.routes.extend((0..512).map(|i| Route {
        signal: 255,
        vehicle: 63,
        zero: 0,
        start: 4 * i,
    }));
    let octets = list.octets();
    let entries = 64 * 2 + 256 * SIGNAL_SIZE + 512 * 6 + 512 * 6;
    assert_eq!(octets.len(), 4 * 2 + entries);
    let counts = Counts {
        checks: 64,
        signals: 256,
        codes: 512,
        routes: 512,
        version: 156,
    };
    assert_eq!(judge(&octets, Form::One), Ok(counts));
    assert_eq!(plain::judge(&octets), Ok(counts));
}

#[test]
fn checks() {
    let list = |checks: &[u64]| List {
        checks: checks.to_vec(),
        ..List::default()
    };
    assert!(ok(&list(&[16, 18, 1020, 1022])));
    assert!(!ok(&list(&[14])));
    assert!(!ok(&list(&[17])));
    assert!(!ok(&list(&[1024])));
    assert!(!ok(&list(&[65535])));
    assert!(!ok(&list(&[65534])));
    assert!(!ok(&list(&[16, 16])));
    assert!(!ok(&list(&[18, 16])));
}

#[test]
fn signal_places() {
    assert!(ok(&with(&[
        signal(16, 48, 0),
        signal(64, 1, 0),
        signal(319, 1, 0)
    ])));
    assert!(ok(&with(&[signal(16, 64, 0), signal(256, 64, 0)])));
    assert!(ok(&with(&[signal(320, 48, 1), signal(976, 48, 1)])));
    assert!(ok(&with(&[signal(321, 64, 1), signal(960, 64, 1)])));
    assert!(ok(&with(&[signal(320, 48, 2), signal(1023, 1, 2)])));
    // The R1 and R2 parts may lie over each other.
    assert!(ok(&with(&[
        signal(16, 8, 0),
        signal(320, 8, 1),
        signal(320, 8, 2)
    ])));
    for (start, width, kind) in [
        (15, 1, 0),
        (16, 0, 0),
        (16, 65, 0),
        (257, 64, 0),
        (961, 64, 1),
        (319, 2, 0),
        (320, 1, 0),
        (319, 2, 1),
        (319, 1, 2),
        (1023, 2, 1),
        (1024, 1, 2),
        (65535, 48, 1),
        (65535, 255, 255),
        (320, 1, 3),
        (320, 1, 255),
    ] {
        assert!(
            !ok(&with(&[signal(start, width, kind)])),
            "{start} {width} {kind}"
        );
    }
}

#[test]
fn signal_order() {
    assert!(!ok(&with(&[signal(16, 8, 0), signal(23, 8, 0)])));
    assert!(!ok(&with(&[signal(24, 8, 0), signal(16, 8, 0)])));
    assert!(!ok(&with(&[signal(320, 8, 1), signal(16, 8, 0)])));
    assert!(!ok(&with(&[signal(320, 8, 2), signal(400, 8, 1)])));
    let list = with(&[
        signal(16, 8, 0),
        signal(320, 8, 1),
        signal(328, 8, 1),
        signal(327, 8, 1),
    ]);
    let last = 2 + 2 + 3 * SIGNAL_SIZE as u64;
    assert_eq!(judge(&list.octets(), Form::One), Err(refusal(3, last)));
}

#[test]
fn signal_numbers() {
    let of = |s: Signal| ok(&with(&[s]));
    let s = signal(320, 4, 1);
    assert!(of(Signal {
        since: 255,
        limit: 600_000,
        replacement: 15,
        ..s.clone()
    }));
    assert!(!of(Signal {
        since: 0,
        ..s.clone()
    }));
    assert!(!of(Signal {
        limit: 600_001,
        ..s.clone()
    }));
    assert!(!of(Signal {
        limit: 0xFFFF_FFFF,
        ..s.clone()
    }));
    assert!(!of(Signal {
        replacement: 16,
        ..s.clone()
    }));
    assert!(!of(Signal {
        check: 1,
        ..s.clone()
    }));
    assert!(of(Signal {
        width: 48,
        replacement: (1 << 48) - 1,
        ..s.clone()
    }));
    assert!(!of(Signal {
        width: 47,
        replacement: 1 << 47,
        ..s.clone()
    }));
    // Six octets are below 2^width from 48 bits on.
    for width in 49..=64 {
        assert!(of(Signal {
            width,
            replacement: (1 << 48) - 1,
            ..s.clone()
        }));
    }
}

#[test]
fn signals_and_checks() {
    let of = |checks: &[u64], signals: &[Signal]| {
        ok(&List {
            checks: checks.to_vec(),
            ..with(signals)
        })
    };
    let named = |check, s: Signal| Signal { check, ..s };
    // "k names the k-th check, which exists and lies below 320 exactly if the type is 0"
    assert!(of(
        &[318, 320],
        &[
            named(1, signal(16, 8, 0)),
            named(2, signal(400, 8, 1)),
            named(2, signal(400, 8, 2))
        ]
    ));
    assert!(!of(&[318, 320], &[named(2, signal(16, 8, 0))]));
    assert!(!of(&[318, 320], &[named(1, signal(400, 8, 1))]));
    assert!(!of(&[318, 320], &[named(3, signal(400, 8, 1))]));
    assert!(!of(&[318, 320], &[named(255, signal(400, 8, 1))]));
    // "No field shares a bit with any check", named or not.
    assert!(of(&[24], &[signal(16, 8, 0), signal(26, 8, 0)]));
    assert!(!of(&[24], &[signal(16, 9, 0)]));
    assert!(!of(&[24], &[signal(25, 1, 0)]));
    assert!(!of(&[24], &[signal(24, 1, 0)]));
    assert!(!of(&[400], &[signal(390, 30, 1)]));
    // Type 2 begins again at the first checks.
    assert!(!of(
        &[330, 400, 900],
        &[signal(902, 8, 1), signal(331, 8, 2)]
    ));
    assert!(!of(
        &[330, 400, 900],
        &[signal(902, 8, 1), signal(332, 8, 2), signal(380, 21, 2)]
    ));
    assert!(of(
        &[330, 400, 900],
        &[signal(902, 8, 1), signal(332, 8, 2), signal(380, 20, 2)]
    ));
}

#[test]
fn codes() {
    let signals = [
        signal(16, 4, 0),
        signal(20, 16, 0),
        signal(40, 17, 0),
        signal(60, 1, 0),
    ];
    let of = |codes: &[(u64, u64, u64)]| {
        let codes = codes
            .iter()
            .map(|&(signal, low, high)| Code { signal, low, high })
            .collect();
        ok(&List {
            codes,
            ..with(&signals)
        })
    };
    assert!(of(&[(0, 0, 15), (1, 0, 65535), (3, 0, 1)]));
    assert!(of(&[(0, 0, 0), (0, 2, 2), (0, 4, 15), (3, 1, 1)]));
    assert!(!of(&[(0, 0, 0), (0, 1, 1)]));
    assert!(!of(&[(0, 0, 5), (0, 6, 7)]));
    assert!(!of(&[(0, 5, 5), (0, 0, 1)]));
    assert!(!of(&[(0, 3, 2)]));
    assert!(!of(&[(0, 0, 16)]));
    assert!(!of(&[(2, 0, 1)]));
    assert!(!of(&[(4, 0, 1)]));
    assert!(!of(&[(65535, 0, 1)]));
    assert!(!of(&[(1, 0, 1), (0, 0, 1)]));
    assert!(of(&[(0, 14, 15), (1, 0, 0)]));
    assert!(!of(&[(1, 0, 65535), (1, 1, 1)]));
    assert!(!of(&[(1, 65535, 65535), (1, 65535, 65535)]));
}

#[test]
fn routes() {
    let signals = [signal(16, 4, 0), signal(20, 48, 0), signal(68, 64, 0)];
    let of = |routes: &[(u64, u64, u64, u64)]| {
        let routes = routes
            .iter()
            .map(|&(signal, vehicle, zero, start)| Route {
                signal,
                vehicle,
                zero,
                start,
            })
            .collect();
        ok(&List {
            routes,
            ..with(&signals)
        })
    };
    assert!(of(&[(0, 1, 0, 0), (0, 1, 0, 4), (1, 63, 0, 2000)]));
    assert!(!of(&[(1, 63, 0, 2001)]));
    assert!(!of(&[(0, 1, 0, 65535)]));
    assert!(of(&[(2, 63, 0, 1984)]));
    assert!(!of(&[(2, 63, 0, 1985)]));
    assert!(!of(&[(3, 1, 0, 0)]));
    assert!(!of(&[(0, 0, 0, 0)]));
    assert!(!of(&[(0, 64, 0, 0)]));
    assert!(!of(&[(0, 1, 1, 0)]));
    assert!(!of(&[(0, 1, 0, 0), (0, 1, 0, 3)]));
    assert!(!of(&[(0, 1, 0, 8), (0, 1, 0, 0)]));
}

#[test]
fn the_r1_grouping() {
    for bit in 0..2_400 {
        let place = plain::check_place(bit);
        assert_eq!(check_place(bit), place.ok_or(refusal(27, 0)));
    }
    for far in [u64::MAX, 1 << 32, (1 << 32) + 400, (1 << 34) + 368] {
        assert_eq!(check_place(far), Err(refusal(27, 0)));
    }
}
