//! C-17: two lists compared.

mod support;

use reference::{
    codes_gained, extends, judge, route_change, signal_change, Change, CodeRange, Extends, Form,
    Refused, Rule,
};

use support::plain::{self, Code, Difference, List, Route, Signal};
use support::{make, refusal, widened, Random, EASE, L, SERIAL_SIZE};

/// A list in a form.
type Of<'a> = (&'a [u8], Form);

/// All that a call gives, each time asked behind what it gave before.
fn walk<T: Copy>(next: impl Fn(u64) -> Option<T>, key: impl Fn(T) -> u64) -> Vec<T> {
    let mut all = vec![];
    let mut from = 0;
    while let Some(given) = next(from) {
        assert!(key(given) >= from, "{} behind {from}", key(given));
        all.push(given);
        from = key(given) + 1;
    }
    all
}

fn plainly(change: Change) -> Difference {
    let breaks = change.breaks.map_or(0, |rule| rule as u64);
    (change.key, change.first, change.second, breaks)
}

fn signals_in((a, form): Of, (b, other): Of) -> Vec<Difference> {
    let next = |from| signal_change(a, form, b, other, from).unwrap();
    let all = walk(next, |change| change.key);
    all.into_iter().map(plainly).collect()
}

fn routes_in((a, form): Of, (b, other): Of) -> Vec<Difference> {
    let next = |from| route_change(a, form, b, other, from).unwrap();
    let all = walk(next, |change| change.key);
    all.into_iter().map(plainly).collect()
}

fn gained_in((a, form): Of, (b, other): Of, key: u64) -> Vec<(u64, u64)> {
    let next = |from| codes_gained(a, form, b, other, key, from).unwrap();
    let all = walk(next, |range: CodeRange| range.low.into());
    let plainly = |range: CodeRange| (range.low.into(), range.high.into());
    all.into_iter().map(plainly).collect()
}

fn gained(a: &List, b: &List, key: u64) -> Vec<(u64, u64)> {
    let given = gained_in((&a.octets(), Form::One), (&b.octets(), Form::One), key);
    assert_eq!(given, plain::codes_gained(a, b, key));
    given
}

fn routes(a: &List, b: &List) -> Vec<Difference> {
    let given = routes_in((&a.octets(), Form::One), (&b.octets(), Form::One));
    assert_eq!(given, plain::route_changes(a, b));
    given
}

/// The signals that differ, held to the plain form and to extending, with the codes of each and of both orders.
fn signals(a: &List, b: &List) -> Vec<Difference> {
    let (first, second) = (&a.octets(), &b.octets());
    let given = signals_in((first, Form::One), (second, Form::One));
    assert_eq!(given, plain::signal_changes(a, b));
    for &(key, ..) in &given {
        gained(a, b, key);
        gained(b, a, key);
    }
    let breaks = given.iter().any(|&(.., breaks)| breaks != 0);
    let wanted = if breaks { Extends::No } else { Extends::Yes };
    assert_eq!(extends(first, Form::One, second, Form::One), wanted);
    given
}

/// A signal of type 0, 4 bits wide, without a check.
fn signal(start: u64) -> Signal {
    Signal {
        start,
        width: 4,
        kind: 0,
        check: 0,
        since: 1,
        limit: 0,
        replacement: 0,
    }
}

fn list(signals: &[Signal]) -> List {
    List {
        signals: signals.to_vec(),
        ..List::default()
    }
}

/// One signal from bit 24 on that knows these ranges.
fn knowing(width: u64, ranges: &[(u64, u64)]) -> List {
    let of = |&(low, high)| Code {
        signal: 0,
        low,
        high,
    };
    List {
        codes: ranges.iter().map(of).collect(),
        ..list(&[Signal {
            width,
            ..signal(24)
        }])
    }
}

fn routed(list: &List, routes: &[(u64, u64, u64)]) -> List {
    let of = |&(start, vehicle, signal)| Route {
        signal,
        vehicle,
        zero: 0,
        start,
    };
    List {
        routes: routes.iter().map(of).collect(),
        ..list.clone()
    }
}

#[test]
fn which_list_is_refused() {
    let ask = |a: &[u8], b: &[u8]| {
        let answers = [
            signal_change(a, Form::One, b, Form::One, 0).err(),
            route_change(a, Form::One, b, Form::One, 0).err(),
            codes_gained(a, Form::One, b, Form::One, 0, 0).err(),
        ];
        assert_eq!([answers[0]; 3], answers);
        answers[0]
    };
    assert_eq!(ask(&L, &L), None);
    assert_eq!(ask(&L[..43], &[]), Some(Refused::First(refusal(1, 36))));
    assert_eq!(ask(&L, &L[..43]), Some(Refused::Second(refusal(1, 36))));
    let more = [&L[..], &[0]].concat();
    assert_eq!(ask(&more, &L), Some(Refused::First(refusal(4, 44))));
    assert_eq!(ask(&L, &more), Some(Refused::Second(refusal(4, 44))));
    // Whatever is asked for; in form 2 the count of L's codes is a serial number.
    let refused = signal_change(&L, Form::One, &L, Form::Two, u64::MAX);
    assert_eq!(refused, Err(Refused::Second(refusal(4, 28))));
}

#[test]
fn a_list_and_itself() {
    let mut r = Random::new(17);
    for round in 0..200 / EASE {
        let list = make::list(&mut r, round == 1);
        let octets = &list.octets();
        let of = (&octets[..], Form::One);
        assert_eq!(signals_in(of, of), []);
        assert_eq!(routes_in(of, of), []);
        for s in &list.signals {
            assert_eq!(gained_in(of, of, 1024 * s.kind + s.start), []);
        }
    }
}

/// Each field alone, and what it breaks.
#[test]
fn one_field() {
    let a = List {
        checks: vec![16, 18],
        ..list(&[Signal {
            check: 1,
            since: 2,
            ..signal(24)
        }])
    };
    // What is edited, and what that breaks.
    type Edit = (fn(&mut Signal), u64);
    let edits: [Edit; 8] = [
        (|s| s.width = 5, 1),
        (|s| s.width = 3, 1),
        (|s| s.check = 2, 2),
        (|s| s.check = 0, 2),
        (|s| s.since = 1, 3),
        (|s| s.since = 3, 3),
        (|s| s.limit = 1, 0),
        (|s| s.replacement = 15, 0),
    ];
    for (edit, breaks) in edits {
        let mut b = a.clone();
        edit(&mut b.signals[0]);
        if b.signals[0].width == 3 {
            b.signals[0].replacement = 7;
        }
        assert_eq!(signals(&a, &b), [(24, 0, 0, breaks)]);
        assert_eq!(signals(&b, &a), [(24, 0, 0, breaks)]);
    }
}

/// Of several rules that are broken the first is told.
#[test]
fn the_first_rule() {
    let a = knowing(4, &[(0, 14)]);
    let mut b = knowing(4, &[(0, 13)]);
    assert_eq!(signals(&a, &b), [(24, 0, 0, 4)]);
    b.signals[0].since = 2;
    assert_eq!(signals(&a, &b), [(24, 0, 0, 3)]);
    b.checks = vec![16];
    b.signals[0].check = 1;
    assert_eq!(signals(&a, &b), [(24, 0, 0, 2)]);
    b.signals[0].width = 5;
    assert_eq!(signals(&a, &b), [(24, 0, 0, 1)]);
    b.signals[0].start = 25;
    assert_eq!(signals(&a, &b), [(24, 0, 1, 5), (25, 1, 0, 0)]);
}

/// Not by its number: a check before it changes nothing, and the same number may be another place.
#[test]
fn a_check_by_its_place() {
    let a = List {
        checks: vec![20],
        ..list(&[Signal {
            check: 1,
            ..signal(24)
        }])
    };
    let mut b = a.clone();
    b.checks = vec![18, 20];
    assert_eq!(signals(&a, &b), [(24, 0, 0, 2)]);
    b.signals[0].check = 2;
    assert_eq!(signals(&a, &b), []);
    // Nor do checks count that no signal names.
    b.checks = vec![16, 20, 300, 1022];
    assert_eq!(signals(&a, &b), []);
    assert_eq!(signals(&b, &a), []);
    b.checks = vec![16, 22];
    assert_eq!(signals(&a, &b), [(24, 0, 0, 2)]);
}

#[test]
fn added_and_removed() {
    let newer = |start, since| Signal {
        since,
        ..signal(start)
    };
    let a = list(&[newer(24, 3), newer(40, 2)]);
    // The list's version is 3, by a signal that is not beside the one added.
    let b = list(&[newer(24, 3), newer(32, 4), newer(40, 2), newer(48, 3)]);
    assert_eq!(signals(&a, &b), [(32, 2, 1, 0), (48, 2, 3, 6)]);
    assert_eq!(signals(&b, &a), [(32, 1, 2, 5), (48, 3, 2, 5)]);
    // A list of no signal has version 1.
    let none = List::default();
    assert_eq!(signals(&none, &list(&[newer(16, 1)])), [(16, 0, 0, 6)]);
    assert_eq!(signals(&none, &list(&[newer(16, 2)])), [(16, 0, 0, 0)]);
    assert_eq!(signals(&list(&[newer(16, 2)]), &none), [(16, 0, 0, 5)]);
}

/// By type, then by start: the same start of another type is another signal.
#[test]
fn in_order_of_type_and_start() {
    let of = |kind, start| Signal {
        kind,
        ..signal(start)
    };
    let a = list(&[of(0, 300), of(1, 400), of(2, 320)]);
    let b = list(&[of(0, 16), of(1, 320), of(1, 1020), of(2, 400)]);
    let keys = signals(&a, &b).into_iter().map(|(key, ..)| key);
    let wanted = [16, 300, 1344, 1424, 2044, 2368, 2448];
    assert_eq!(keys.collect::<Vec<u64>>(), wanted);
}

/// Its codes are not compared, neither as a change beside the width nor as ranges.
#[test]
fn a_width_that_changed_lists_no_codes() {
    let (a, b) = (knowing(4, &[(0, 3)]), knowing(5, &[(0, 7)]));
    assert_eq!(signals(&a, &b), [(24, 0, 0, 1)]);
    assert_eq!(gained(&a, &b, 24), []);
    assert_eq!(gained(&b, &a, 24), []);
    // Nor are those of a signal that one list lacks, or that is wider than 16 bits.
    assert_eq!(gained(&a, &List::default(), 24), []);
    assert_eq!(gained(&List::default(), &a, 24), []);
    assert_eq!(gained(&knowing(17, &[]), &knowing(17, &[]), 24), []);
    assert_eq!(signals(&knowing(16, &[]), &knowing(17, &[])).len(), 1);
}

#[test]
fn a_full_range_is_no_entry() {
    for width in 1..=16 {
        let (all, full) = (
            knowing(width, &[]),
            knowing(width, &[(0, (1 << width) - 1)]),
        );
        assert_eq!(signals(&all, &full), []);
        assert_eq!(signals(&full, &all), []);
        assert_eq!(gained(&all, &full, 24), []);
        assert_eq!(gained(&full, &all, 24), []);
    }
}

/// Never two ranges side by side, such as 4-5 and 6-7 for 4-7.
#[test]
fn ranges_as_long_as_possible() {
    type Ranges<'a> = &'a [(u64, u64)];
    let table: [(Ranges, Ranges, Ranges, Ranges); 11] = [
        (&[(0, 3)], &[(0, 7)], &[(4, 7)], &[]),
        (&[(0, 3), (8, 15)], &[], &[(4, 7)], &[]),
        (&[(4, 4)], &[], &[(0, 3), (5, 15)], &[]),
        (&[(0, 0), (15, 15)], &[(0, 15)], &[(1, 14)], &[]),
        (&[(0, 1), (3, 4)], &[(0, 4)], &[(2, 2)], &[]),
        (
            &[(0, 6), (15, 15)],
            &[(0, 7), (9, 15)],
            &[(7, 7), (9, 14)],
            &[],
        ),
        (&[(0, 3)], &[(8, 11)], &[(8, 11)], &[(0, 3)]),
        (&[(0, 7)], &[(4, 11)], &[(8, 11)], &[(0, 3)]),
        (
            &[(2, 9)],
            &[(0, 3), (5, 6), (8, 11)],
            &[(0, 1), (10, 11)],
            &[(4, 4), (7, 7)],
        ),
        (
            &[(1, 1), (3, 3)],
            &[(0, 0), (2, 2), (4, 4)],
            &[(0, 0), (2, 2), (4, 4)],
            &[(1, 1), (3, 3)],
        ),
        (&[(15, 15)], &[(0, 0)], &[(0, 0)], &[(15, 15)]),
    ];
    for (old, new, wanted, lost) in table {
        let (a, b) = (knowing(4, old), knowing(4, new));
        assert_eq!(gained(&a, &b, 24), wanted, "{old:?} {new:?}");
        assert_eq!(gained(&b, &a, 24), lost, "{old:?} {new:?}");
        let breaks = if lost.is_empty() { 0 } else { 4 };
        assert_eq!(signals(&a, &b), [(24, 0, 0, breaks)]);
    }
}

#[test]
fn ranges_at_both_ends_of_16_bits() {
    let (a, b) = (knowing(16, &[(1, 65_534)]), knowing(16, &[]));
    assert_eq!(gained(&a, &b, 24), [(0, 0), (65_535, 65_535)]);
    assert_eq!(gained(&b, &a, 24), []);
}

/// What began before the code that is asked from is passed over, not cut.
#[test]
fn from_inside_a_range() {
    let (a, b) = (
        knowing(4, &[(0, 3)]).octets(),
        knowing(4, &[(0, 7), (9, 9)]).octets(),
    );
    let next = |from| codes_gained(&a, Form::One, &b, Form::One, 24, from).unwrap();
    let range = |low, high| Some(CodeRange { low, high });
    for from in 0..=4 {
        assert_eq!(next(from), range(4, 7));
    }
    for from in 5..=9 {
        assert_eq!(next(from), range(9, 9));
    }
    for from in [10, 16, 1 << 16, (1 << 32) + 4, u64::MAX] {
        assert_eq!(next(from), None);
    }
    // No key is another once it is cut to fewer bits, and there is no start of 1024.
    for key in [
        0,
        23,
        25,
        1024 + 24,
        (1 << 32) + 24,
        (1 << 16) + 24,
        u64::MAX,
    ] {
        assert_eq!(codes_gained(&a, Form::One, &b, Form::One, key, 0), Ok(None));
    }
}

#[test]
fn from_any_key() {
    let (a, b) = (list(&[signal(24)]), list(&[signal(32), signal(300)]));
    let (a, b) = (routed(&a, &[(0, 1, 0)]), routed(&b, &[(2000, 1, 0)]));
    let (a, b) = (a.octets(), b.octets());
    let key = |change: Option<Change>| change.map(|change| change.key);
    for from in (0..400).chain([1 << 16, (1 << 32) + 1, u64::MAX]) {
        let given = signal_change(&a, Form::One, &b, Form::One, from).unwrap();
        let wanted = [24, 32, 300].into_iter().find(|&key| key >= from);
        assert_eq!(key(given), wanted);
    }
    for from in (0..2048).chain([1 << 16, (1 << 32) + 1, u64::MAX]) {
        let given = route_change(&a, Form::One, &b, Form::One, from).unwrap();
        let wanted = [0, 2000].into_iter().find(|&key| key >= from);
        assert_eq!(key(given), wanted);
    }
}

/// Not by its number in the list.
#[test]
fn a_route_by_type_and_start_of_its_signal() {
    let of = |kind, start| Signal {
        kind,
        since: 2,
        ..signal(start)
    };
    let a = routed(&list(&[of(0, 40), of(1, 400)]), &[(0, 1, 0), (8, 2, 1)]);
    // A signal before them: other numbers, the same signals.
    let b = list(&[of(0, 24), of(0, 40), of(1, 400)]);
    assert_eq!(routes(&a, &routed(&b, &[(0, 1, 1), (8, 2, 2)])), []);
    // The same numbers, other signals.
    let moved = routed(&b, &[(0, 1, 0), (8, 2, 1)]);
    assert_eq!(routes(&a, &moved), [(0, 0, 0, 0), (8, 1, 1, 0)]);
    // The same start of another type.
    let other = list(&[of(0, 40), of(2, 400)]);
    assert_eq!(
        routes(&a, &routed(&other, &[(0, 1, 0), (8, 2, 1)])),
        [(8, 1, 1, 0)]
    );
    // Its other fields are the signal's matter.
    let mut wider = a.clone();
    wider.signals[1].width = 6;
    wider.signals[1].limit = 9;
    assert_eq!(routes(&a, &wider), []);
}

#[test]
fn routes_added_removed_and_of_another_vehicle() {
    let of = |routes: &[(u64, u64, u64)]| routed(&list(&[signal(24)]), routes);
    let a = of(&[(0, 1, 0), (8, 2, 0), (2044, 63, 0)]);
    assert_eq!(
        routes(&a, &of(&[(0, 1, 0), (8, 3, 0), (2044, 63, 0)])),
        [(8, 1, 1, 0)]
    );
    assert_eq!(routes(&a, &of(&[(0, 1, 0), (2044, 63, 0)])), [(8, 1, 2, 0)]);
    assert_eq!(routes(&of(&[(0, 1, 0), (2044, 63, 0)]), &a), [(8, 2, 1, 0)]);
    // Moved by a bit: removed, and added.
    let moved = of(&[(0, 1, 0), (9, 2, 0), (2044, 63, 0)]);
    assert_eq!(routes(&a, &moved), [(8, 1, 3, 0), (9, 3, 1, 0)]);
    let none = of(&[]);
    assert_eq!(
        routes(&a, &none),
        [(0, 0, 0, 0), (8, 1, 0, 0), (2044, 2, 0, 0)]
    );
    assert_eq!(signals(&a, &none), []);
}

#[test]
fn l_with_other_codes() {
    let a = List::judged(&L).unwrap();
    let mut b = a.clone();
    b.codes[0].high = 7;
    b.signals[0].limit = 6_000;
    b.routes[0].vehicle = 2;
    let key = 1024 + 424;
    assert_eq!(signals(&a, &b), [(key, 0, 0, 0)]);
    assert_eq!(signals(&b, &a), [(key, 0, 0, 4)]);
    assert_eq!(
        (gained(&a, &b, key), gained(&b, &a, key)),
        (vec![(7, 7)], vec![])
    );
    assert_eq!(routes(&a, &b), [(0, 0, 0, 0)]);
    let breaks = signal_change(&b.octets(), Form::One, &L, Form::One, 0);
    assert_eq!(
        breaks.map(|change| change.and_then(|c| c.breaks)),
        Ok(Some(Rule::Codes))
    );
}

/// A pair of good lists, the second with some numbers changed.
fn made_pair(r: &mut Random, full: bool, wide: u64) -> [List; 2] {
    let a = make::list_up_to(r, full, wide);
    let mut b = a.clone();
    for _ in 0..r.of(&[1, 1, 2, 5]) {
        let changed = make::changed(r, &b);
        if judge(&changed.octets(), Form::One).is_ok() {
            b = changed;
        }
        if !b.routes.is_empty() && r.one_in(3) {
            let i = r.below(b.routes.len() as u64) as usize;
            b.routes[i].vehicle = r.within(1, 63);
        }
    }
    [a, b]
}

/// As the plain form has it, in both orders: what was added is removed, what was gained is lost.
#[test]
fn made_pairs() {
    let mut r = Random::new(18);
    let mut met = [0; 10];
    for round in 0..1_000 / EASE {
        // Signals as wide as 16 bits only now and then: the plain form goes code by code.
        let wide = if round % 500 == 0 {
            16
        } else {
            r.of(&[2, 4, 6])
        };
        let [a, b] = made_pair(&mut r, round % 500 == 1, wide);
        let (there, back) = (signals(&a, &b), signals(&b, &a));
        let turned = |all: &[Difference]| -> Vec<(u64, u64, u64)> {
            all.iter().map(|&(key, i, j, _)| (key, j, i)).collect()
        };
        let plain = |all: &[Difference]| -> Vec<(u64, u64, u64)> {
            all.iter().map(|&(key, i, j, _)| (key, i, j)).collect()
        };
        assert_eq!(turned(&there), plain(&back));
        assert_eq!(turned(&routes(&a, &b)), plain(&routes(&b, &a)));
        there
            .iter()
            .for_each(|&(.., breaks)| met[breaks as usize] += 1);
        back.iter()
            .for_each(|&(.., breaks)| met[breaks as usize] += 1);
        met[7] += usize::from(there.is_empty());
        met[8] += routes(&a, &b).len();
        met[9] += there
            .iter()
            .map(|&(key, ..)| gained(&a, &b, key).len())
            .sum::<usize>();
    }
    assert!(met.iter().all(|&count| count > 20 / EASE), "{met:?}");
}

/// In all pairs of forms, with serial numbers set, the same is given.
#[test]
fn forms() {
    let mut r = Random::new(19);
    for _ in 0..200 / EASE {
        let [a, b] = made_pair(&mut r, false, 6);
        let [wide_a, wide_b] = [&a, &b].map(|list| {
            let serial = |_| [r.word() as u8, r.word() as u8];
            let serials: Vec<[u8; SERIAL_SIZE]> = list.signals.iter().map(serial).collect();
            widened(&list.octets(), list.checks.len(), &serials)
        });
        let (signals, routes) = (signals(&a, &b), routes(&a, &b));
        let (plain_a, plain_b) = (a.octets(), b.octets());
        for first in [(&plain_a, Form::One), (&wide_a, Form::Two)] {
            for second in [(&plain_b, Form::One), (&wide_b, Form::Two)] {
                let (first, second): (Of, Of) = ((first.0, first.1), (second.0, second.1));
                assert_eq!(signals_in(first, second), signals);
                assert_eq!(routes_in(first, second), routes);
                for &(key, ..) in &signals {
                    let wanted = plain::codes_gained(&a, &b, key);
                    assert_eq!(gained_in(first, second, key), wanted);
                }
            }
        }
    }
}
