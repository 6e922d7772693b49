mod support;

use reference::{extends, Extends, Form};
use support::plain::{self, Code, List, Signal};
use support::{make, refusal, Random, EASE, L};

fn answer(a: &List, b: &List) -> bool {
    let ours = extends(&a.octets(), Form::One, &b.octets(), Form::One);
    let plain = plain::extends(a, b);
    assert_eq!(ours, if plain { Extends::Yes } else { Extends::No });
    plain
}

#[test]
fn which_list_is_refused() {
    assert_eq!(extends(&L, Form::One, &L, Form::One), Extends::Yes);
    assert_eq!(
        extends(&L[..43], Form::One, &[], Form::One),
        Extends::First(refusal(1, 36))
    );
    assert_eq!(
        extends(&L, Form::One, &L[..43], Form::One),
        Extends::Second(refusal(1, 36))
    );
    assert_eq!(
        extends(&[0; 8], Form::One, &[0; 8], Form::One),
        Extends::Yes
    );
    assert_eq!(extends(&L, Form::One, &[0; 8], Form::One), Extends::No);
    // A's version is 1 and the signal's since-version is not above it.
    assert_eq!(extends(&[0; 8], Form::One, &L, Form::One), Extends::No);
}

#[test]
fn new_signals_need_a_newer_version() {
    let s = |start, since| Signal {
        start,
        width: 8,
        kind: 0,
        check: 0,
        since,
        limit: 0,
        replacement: 0,
    };
    let list = |signals: &[Signal]| List {
        signals: signals.to_vec(),
        ..List::default()
    };
    let a = list(&[s(24, 2), s(40, 3)]);
    assert!(answer(
        &a,
        &list(&[s(16, 4), s(24, 2), s(32, 4), s(40, 3), s(48, 9)])
    ));
    assert!(!answer(&a, &list(&[s(16, 3), s(24, 2), s(40, 3)])));
    assert!(!answer(&a, &list(&[s(24, 2), s(40, 3), s(48, 3)])));
    assert!(!answer(&a, &list(&[s(24, 2)])));
    assert!(!answer(&a, &list(&[s(40, 3)])));
    assert!(!answer(&a, &list(&[s(24, 2), s(41, 4)])));
    assert!(!answer(&a, &list(&[s(24, 2), s(40, 4)])));
    assert!(answer(&list(&[]), &list(&[s(16, 2)])));
    assert!(!answer(&list(&[]), &list(&[s(16, 1)])));
}

#[test]
fn known_codes() {
    let s = Signal {
        start: 16,
        width: 4,
        kind: 0,
        check: 0,
        since: 1,
        limit: 0,
        replacement: 0,
    };
    let list = |ranges: &[(u64, u64)]| List {
        signals: vec![s.clone()],
        codes: ranges
            .iter()
            .map(|&(low, high)| Code {
                signal: 0,
                low,
                high,
            })
            .collect(),
        ..List::default()
    };
    type Ranges<'a> = &'a [(u64, u64)];
    let table: [(Ranges, Ranges, bool); 11] = [
        (&[], &[], true),
        (&[], &[(0, 15)], true),
        (&[], &[(0, 14)], false),
        (&[], &[(1, 15)], false),
        (&[], &[(0, 6), (8, 15)], false),
        (&[(0, 15)], &[], true),
        (&[(0, 6), (15, 15)], &[(0, 6), (15, 15)], true),
        (&[(0, 6), (15, 15)], &[(0, 7), (9, 15)], true),
        (&[(0, 6), (15, 15)], &[(0, 6)], false),
        (&[(0, 6), (15, 15)], &[(15, 15)], false),
        (&[(0, 1), (3, 4)], &[(0, 4)], true),
    ];
    for (a, b, expected) in table {
        assert_eq!(answer(&list(a), &list(b)), expected, "{a:?} {b:?}");
    }
}

#[test]
fn limits_replacements_and_check_numbers_may_differ() {
    let mut a = plain::List::judged(&L).unwrap();
    let mut b = a.clone();
    b.signals[0].limit = 0;
    b.signals[0].replacement = 9;
    b.routes.clear();
    assert!(answer(&a, &b));
    b.checks.insert(0, 320);
    assert!(!answer(&a, &b));
    b.signals[0].check = 2;
    assert!(answer(&a, &b));
    b.signals[0].check = 0;
    assert!(!answer(&a, &b));
    assert!(!answer(&b, &a));
    a.signals[0].check = 0;
    assert!(answer(&a, &b));
}

#[test]
fn made_pairs() {
    let mut r = Random::new(4);
    let mut met = [0; 2];
    let mut rounds = 0;
    while rounds < 3_000 / EASE {
        // Signals as wide as 16 bits only now and then: the plain form goes code by code.
        let wide = if rounds % 600 == 0 {
            16
        } else {
            r.of(&[2, 4, 6])
        };
        let a = make::list_up_to(&mut r, rounds % 500 == 1, wide);
        let mut b = a.clone();
        for _ in 0..r.below(3) {
            b = make::changed(&mut r, &b);
        }
        if r.one_in(2) {
            // Less signals in A than in B, those of the highest version gone.
            let version = a.version();
            let mut less = a.clone();
            less.routes.clear();
            let kept: Vec<u64> = (0..)
                .zip(&a.signals)
                .filter(|(_, s)| s.since < version)
                .map(|(i, _)| i)
                .collect();
            less.signals.retain(|s| s.since < version);
            less.codes.retain(|c| kept.contains(&c.signal));
            for c in &mut less.codes {
                c.signal = kept.iter().position(|&i| i == c.signal).unwrap() as u64;
            }
            assert!(plain::judge(&less.octets()).is_ok());
            if plain::judge(&b.octets()).is_ok() {
                met[usize::from(answer(&less, &b))] += 1;
            }
        }
        if plain::judge(&b.octets()).is_ok() {
            met[usize::from(answer(&a, &b))] += 1;
            met[usize::from(answer(&b, &a))] += 1;
        }
        rounds += 1;
    }
    assert!(met.iter().all(|&count| count > 1000 / EASE), "{met:?}");
}
