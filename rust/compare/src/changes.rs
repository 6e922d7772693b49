//! Pairs of lists to be compared that are few enough to try them all.

use crate::case::{Call, Case};
use crate::edited::key;
use crate::exhaustive::{large, most_signals, one_signal, spoilt, L, L_KEY};
use crate::list::{Code, List, Route, Signal};

pub fn each(try_one: &mut impl FnMut(Case)) {
    keys(try_one);
    known_codes(try_one);
    ends_of_16_bits(try_one);
    places(try_one);
    one_of_most(try_one);
    routes(try_one);
    refused(try_one);
}

/// The octets of two lists in their forms, compared from the start, with the codes of L's signal.
pub fn compared(try_one: &mut impl FnMut(Case), lists: [&[u8]; 2], forms: [u64; 2]) {
    let mut ask = |call, numbers: &[u64]| {
        let areas = lists.map(<[u8]>::to_vec).to_vec();
        try_one(Case::new(call, areas, [&forms, numbers].concat()));
    };
    ask(Call::SignalChange, &[0]);
    ask(Call::RouteChange, &[0]);
    ask(Call::CodesGained, &[L_KEY, 0]);
}

/// Two lists in form 1, asked this.
fn ask(try_one: &mut impl FnMut(Case), call: Call, lists: [&List; 2], numbers: &[u64]) {
    let areas = lists.map(List::octets).to_vec();
    let forms = lists.map(|list| list.form);
    try_one(Case::new(call, areas, [&forms, numbers].concat()));
}

/// Two lists with differences of all kinds among what stays, from every key there can be and beyond; and the codes of every key.
fn keys(try_one: &mut impl FnMut(Case)) {
    let [a, b] = differing();
    for from in (0..=3_100).chain(large()) {
        for lists in [[&a, &b], [&b, &a], [&a, &a]] {
            ask(try_one, Call::SignalChange, lists, &[from]);
            ask(try_one, Call::RouteChange, lists, &[from]);
            ask(try_one, Call::CodesGained, lists, &[from, 0]);
        }
        ask(try_one, Call::CodesGained, [&a, &b], &[24, from]);
        ask(try_one, Call::CodesGained, [&a, &b], &[1_024 + 400, from]);
    }
}

fn signal(kind: u64, start: u64, width: u64) -> Signal {
    Signal {
        limit: 1_000,
        ..one_signal(kind, start, width, 0).signals[0]
    }
}

fn code(signal: u64, low: u64, high: u64) -> Code {
    Code { signal, low, high }
}

fn route(start: u64, vehicle: u64, signal: u64) -> Route {
    Route {
        signal,
        vehicle,
        zero: 0,
        start,
    }
}

/// Signals of all types, some with codes, one under a check, some with routes.
fn of_all_types() -> List {
    let signals = [
        signal(0, 24, 4),
        signal(0, 40, 8),
        signal(0, 300, 4),
        signal(1, 400, 16),
        signal(2, 400, 16),
        signal(2, 1_000, 24),
    ];
    let routes = [(0, 1, 0), (8, 2, 1), (40, 3, 3), (2_024, 63, 5)];
    let mut list = List {
        form: 1,
        checks: vec![16, 320],
        signals: signals.to_vec(),
        codes: vec![code(0, 0, 6), code(0, 15, 15), code(3, 10, 600)],
        routes: routes
            .map(|(start, vehicle, s)| route(start, vehicle, s))
            .to_vec(),
        ..List::default()
    };
    list.signals[0].check = 1;
    list
}

/// These, and others: a limit, codes, a check by another number, signals that come and go, and routes likewise.
fn differing() -> [List; 2] {
    let a = of_all_types();
    let mut b = a.clone();
    b.signals[2].limit = 2_000;
    b.codes = [(0, 0, 7), (0, 9, 9), (3, 0, 9), (3, 601, 65_535)]
        .map(|(signal, low, high)| code(signal, low, high))
        .to_vec();
    b.insert_check(18);
    b.remove_signal(4);
    b.insert_signal(signal(0, 60, 4));
    b.insert_signal(signal(2, 401, 16));
    b.routes[1].vehicle = 9;
    b.routes.insert(1, route(4, 5, 0));
    [a, b]
}

/// A signal of three bits with every set of known codes in either list: none is as all, by an entry or without one.
fn known_codes(try_one: &mut impl FnMut(Case)) {
    let lists: Vec<List> = (0..=256).map(|set| knowing(3, set)).collect();
    for (number, a) in lists.iter().enumerate() {
        for (other, b) in lists.iter().enumerate() {
            ask(try_one, Call::SignalChange, [a, b], &[0]);
            // From the first code, and from another, each in its turn.
            ask(try_one, Call::CodesGained, [a, b], &[24, 0]);
            let from = (number + other) as u64 % 9;
            ask(try_one, Call::CodesGained, [a, b], &[24, from]);
        }
    }
}

/// One signal that knows the codes whose bits are set, 0 for all; one set more is the full range by an entry.
fn knowing(width: u64, set: u64) -> List {
    let mut list = one_signal(0, 24, width, 0);
    list.signals[0].replacement = 0;
    let set = if set == 256 { 255 } else { set };
    let full = (1 << (1 << width)) - 1;
    let mut low = 0;
    for at in 0..=1u64 << width {
        let is_in = |at: u64| set & full & (1 << at) != 0;
        if is_in(at) && (at == 0 || !is_in(at - 1)) {
            low = at;
        }
        if is_in(at) && !is_in(at + 1) {
            list.codes.push(code(0, low, at));
        }
    }
    list
}

/// Ranges at the ends of fields of all widths that may have codes, and of one that may not, against all codes and one.
fn ends_of_16_bits(try_one: &mut impl FnMut(Case)) {
    for width in 1..=17 {
        let mut all = one_signal(1, 400, width, 0);
        all.signals[0].replacement = 0;
        let top = all.signals[0].top();
        let with = |low, high| {
            let codes = match width <= 16 {
                true => vec![code(0, low, high)],
                false => vec![],
            };
            List {
                codes,
                ..all.clone()
            }
        };
        let lists = [
            all.clone(),
            with(0, top),
            with(0, 0),
            with(top, top),
            with(0, top / 2),
            with(1, top.max(1)),
        ];
        for a in &lists {
            for b in &lists {
                ask(try_one, Call::SignalChange, [a, b], &[0]);
                for from in [0, 1, top / 2, top / 2 + 1, top, top + 1] {
                    ask(try_one, Call::CodesGained, [a, b], &[1_424, from]);
                }
            }
        }
    }
}

/// One signal of either list at each pair of some places: by type, then by start.
fn places(try_one: &mut impl FnMut(Case)) {
    let starts = [
        (0, 16),
        (0, 17),
        (0, 319),
        (1, 320),
        (1, 321),
        (1, 1_023),
        (2, 320),
        (2, 1_023),
    ];
    let lists: Vec<List> = starts
        .into_iter()
        .map(|(kind, start)| one_signal(kind, start, 1, start))
        .collect();
    for a in &lists {
        for b in &lists {
            for from in lists.iter().map(|list| key(&list.signals[0])) {
                for from in [from - 1, from, from + 1] {
                    ask(try_one, Call::SignalChange, [a, b], &[from]);
                }
            }
            ask(try_one, Call::RouteChange, [a, b], &[0]);
        }
    }
}

/// As many signals as there can be, and one of them with another field, gone, or come, in both orders and in form 2.
fn one_of_most(try_one: &mut impl FnMut(Case)) {
    let good = most_signals();
    let edits: [fn(&mut Signal); 5] = [
        |s| s.width -= 1,
        |s| {
            s.check = if s.check == 0 {
                32 + 32 * s.kind.min(1)
            } else {
                0
            }
        },
        |s| s.since += 1,
        |s| s.limit += 1,
        |s| s.replacement ^= 1,
    ];
    for number in 0..good.signals.len() {
        let mut other = good.clone();
        edits[number % edits.len()](&mut other.signals[number]);
        let mut less = good.clone();
        less.remove_signal(number);
        for list in [other, less] {
            let wide = List {
                form: 2,
                ..list.clone()
            };
            ask(try_one, Call::SignalChange, [&good, &list], &[0]);
            ask(try_one, Call::SignalChange, [&wide, &good], &[0]);
            let behind = key(&good.signals[number]) + 1;
            ask(try_one, Call::SignalChange, [&good, &list], &[behind]);
        }
    }
}

/// Routes of three signals, two of which have the same start, at two places, each there or not.
fn routes(try_one: &mut impl FnMut(Case)) {
    let signals =
        [(0, 24), (1, 400), (2, 400)].map(|(kind, start)| one_signal(kind, start, 2, 0).signals[0]);
    let routes = |number: u64| {
        // For each place none, or one of the signals with one of two vehicles.
        let choices = [number % 7, number / 7 % 7];
        let places = (0..).zip(choices).filter(|&(_, choice)| choice != 0);
        let of = |(place, n): (u64, u64)| route(2_046 * place, 1 + (n - 1) / 3, (n - 1) % 3);
        places.map(of).collect()
    };
    let lists = (0..49).map(|number| List {
        form: 1,
        signals: signals.to_vec(),
        routes: routes(number),
        ..List::default()
    });
    let lists: Vec<List> = lists.collect();
    for a in &lists {
        for b in &lists {
            for from in [0, 1, 2_046, 2_047] {
                ask(try_one, Call::RouteChange, [a, b], &[from]);
            }
        }
    }
}

/// L good and refused in every way, with itself.
fn refused(try_one: &mut impl FnMut(Case)) {
    let lists = spoilt(&L);
    for a in &lists {
        for b in &lists {
            compared(try_one, [a, b], [1, 1]);
        }
    }
}

#[cfg(test)]
mod tests {
    use super::*;
    use crate::edited::is_good;

    #[test]
    fn the_lists_are_good() {
        let made = (0..=256).map(|set| knowing(3, set)).chain(differing());
        made.for_each(|list| assert!(is_good(&list), "{list:?}"));
        assert_eq!(knowing(3, 255).codes, knowing(3, 256).codes);
    }
}
