//! Two good lists to be compared, the second an edit of the first: a field, a check, codes, signals or routes are others, or only look so.

use crate::list::{Code, List, Route, Signal};
use crate::random::Random;
use crate::{make, pair};
use reference::Form;

/// What most of the edits are of.
#[derive(Debug, Clone, Copy, PartialEq)]
pub enum Of {
    Signals,
    Codes,
    Routes,
}

type Edit = fn(&Random, &mut List, u64);

/// Two good lists.
pub fn lists(r: &Random, of: Of) -> [List; 2] {
    let a = match (r.below(6), of) {
        (0, _) => make::list(r),
        (1, _) => make::list_to_scale(r),
        (_, Of::Signals) => make::list_with_signals(r),
        (_, Of::Codes) => make::list_with_codes(r),
        (_, Of::Routes) => make::list_with_routes(r),
    };
    lists_from(r, a, of)
}

/// This list and an edit of it; at times the edit comes first.
pub fn lists_from(r: &Random, a: List, of: Of) -> [List; 2] {
    let mut b = a.clone();
    for _ in 0..r.of(&[0, 1, 1, 1, 1, 1, 2, 3, 7, 20]) {
        edit(r, &mut b, of, a.version());
    }
    if r.one_in(2) {
        make::lay_out(r, &mut b, make::form(r));
    }
    match r.one_in(5) {
        true => [b, a],
        false => [a, b],
    }
}

/// One edit that leaves a good list, if one of some does.
fn edit(r: &Random, list: &mut List, of: Of, version: u64) {
    let most: &[Edit] = match of {
        Of::Signals => &[
            one_field,
            one_field,
            move_check,
            rename_checks,
            teach,
            add,
            lose,
        ],
        Of::Codes => &[codes, codes, teach],
        Of::Routes => &[routes, routes, add, lose],
    };
    let all: &[Edit] = &[
        one_field,
        move_check,
        rename_checks,
        codes,
        teach,
        add,
        lose,
        routes,
    ];
    for _ in 0..4 {
        let mut edited = list.clone();
        let edits = if r.one_in(4) { all } else { most };
        r.of(edits)(r, &mut edited, version);
        if edited != *list && is_good(&edited) {
            *list = edited;
            return;
        }
    }
}

/// Whether a list is good, and no number of it is cut to what its octets hold.
pub fn is_good(list: &List) -> bool {
    let octets = list.octets();
    reference::judge(&octets, Form::of(list.form)).is_ok()
        && List::of(&octets, list.form).is_some_and(|whole| whole == *list)
}

/// One field of a signal is another; at times two are, or its codes too.
fn one_field(r: &Random, list: &mut List, _: u64) {
    if list.signals.is_empty() {
        return;
    }
    let at = r.index(list.signals.len());
    field(r, list, at);
    match r.below(8) {
        0 => field(r, list, at),
        1 => teach_one(r, list, at),
        _ => {}
    }
}

fn field(r: &Random, list: &mut List, at: usize) {
    let checks = list.checks.len() as u64;
    let s = &mut list.signals[at];
    match r.below(7) {
        0 => s.limit = r.of(&[s.limit ^ 1, r.near(s.limit), r.word()]) % 600_001,
        1 => s.replacement = r.near(s.replacement) & s.top_replacement(),
        // Both ends of its six octets.
        2 => s.replacement ^= r.of(&[1, s.top_replacement() / 2 + 1]),
        3 => s.since = r.near(s.since).clamp(1, 255),
        4 => s.check = r.below(checks + 1),
        5 => s.check = 0,
        _ => widen(r, list, at),
    }
}

/// Another width, with the codes and the replacement that fit in it.
fn widen(r: &Random, list: &mut List, at: usize) {
    let s = &mut list.signals[at];
    s.width = r.of(&[s.width + 1, s.width - 1, 15, 16, 17]).clamp(1, 64);
    s.replacement &= s.top_replacement();
    let (number, top, coded) = (at as u64, s.top(), s.width <= 16);
    list.codes
        .retain(|c| c.signal != number || coded && c.high <= top);
}

/// A check stands a place before or behind, with all signals that name it.
fn move_check(r: &Random, list: &mut List, _: u64) {
    if !list.checks.is_empty() {
        let at = r.index(list.checks.len());
        list.checks[at] = list.checks[at].wrapping_add(r.of(&[2, u64::MAX - 1]));
    }
}

/// A check that nobody names comes or goes: those behind it have other numbers and the same places.
fn rename_checks(r: &Random, list: &mut List, _: u64) {
    let named = |list: &List, at: usize| list.under(at as u64 + 1).next().is_some();
    let unnamed: Vec<usize> = (0..list.checks.len())
        .filter(|&at| !named(list, at))
        .collect();
    if !unnamed.is_empty() && r.one_in(2) {
        return list.remove_check(r.of(&unnamed));
    }
    let place = r.of(&[16, 320, 2 * r.within(8, 511)]);
    let free = (0..3).all(|kind| list.is_free(kind, place, 2));
    if list.checks.len() < 64 && free && !list.checks.contains(&place) {
        list.insert_check(place);
    }
}

/// Known codes come and go at the ends of a range, it is split or joined, or is gone.
fn codes(r: &Random, list: &mut List, _: u64) {
    if !list.codes.is_empty() {
        pair::edit_codes(r, list);
    }
}

fn teach(r: &Random, list: &mut List, _: u64) {
    if !list.signals.is_empty() {
        teach_one(r, list, r.index(list.signals.len()));
    }
}

/// A signal that knows all codes has an entry that says so, or does not know some; one that knows some knows all, by an entry or by none.
fn teach_one(r: &Random, list: &mut List, number: usize) {
    if list.signals[number].width > 16 || list.codes.len() > 500 {
        return;
    }
    let (signal, top) = (number as u64, list.signals[number].top());
    let none = list.codes_of(number).next().is_none();
    let lost = r.of(&[0, 1, top, r.below(top + 1)]);
    let ranges = match r.below(5) {
        0 => vec![(0, top)],
        1 if !none => vec![],
        // All but one code, and all but the first and the last.
        2 if lost == 0 => vec![(1, top)],
        2 if lost == top => vec![(0, top - 1)],
        2 => vec![(0, lost - 1), (lost + 1, top)],
        3 if top > 1 => vec![(1, top - 1)],
        _ => vec![(lost, lost)],
    };
    list.codes.retain(|c| c.signal != signal);
    let at = list.codes.partition_point(|c| c.signal < signal);
    let entries = ranges.into_iter();
    let entries = entries.map(|(low, high)| Code { signal, low, high });
    list.codes.splice(at..at, entries);
}

/// A signal more, newer or not: those behind it have other numbers.
fn add(r: &Random, list: &mut List, version: u64) {
    pair::add_signal(r, list, version);
}

/// A signal less, with its codes and routes; or it starts a bit before or behind, or is of another type, and keeps its number.
fn lose(r: &Random, list: &mut List, _: u64) {
    if list.signals.is_empty() {
        return;
    }
    let at = r.index(list.signals.len());
    let s = &mut list.signals[at];
    match r.below(4) {
        0 => s.start = r.near(s.start) & 1_023,
        1 if s.kind != 0 => s.kind = 3 - s.kind,
        _ => list.remove_signal(at),
    }
}

fn routes(r: &Random, list: &mut List, _: u64) {
    if list.signals.is_empty() {
        return;
    }
    let signal = r.below(list.signals.len() as u64);
    if list.routes.is_empty() || r.one_in(5) {
        let start = r.of(&[
            0,
            2_048 - list.signals[signal as usize].width,
            r.below(2_048),
        ]);
        let at = list.routes.partition_point(|route| route.start <= start);
        let route = Route {
            signal,
            vehicle: r.within(1, 63),
            zero: 0,
            start,
        };
        return list.routes.insert(at, route);
    }
    let at = r.index(list.routes.len());
    let route = &mut list.routes[at];
    match r.below(6) {
        0 => route.vehicle = r.near(route.vehicle).clamp(1, 63),
        1 => route.signal = signal,
        2 => route.signal = r.near(route.signal),
        3 => route.start = r.near(route.start) & 2_047,
        4 => (route.vehicle, route.signal) = (r.within(1, 63), signal),
        _ => drop(list.routes.remove(at)),
    }
}

/// The key of a signal: its type, then its start.
pub fn key(s: &Signal) -> u64 {
    1_024 * s.kind + s.start
}

/// The number of the signal at a key.
pub fn at(list: &List, wanted: u64) -> Option<usize> {
    list.signals.iter().position(|s| key(s) == wanted)
}

/// The keys of signals of both lists whose code entries are not the same.
pub fn with_other_codes([a, b]: &[List; 2]) -> Vec<u64> {
    let entries = |list: &List, number| -> Vec<(u64, u64)> {
        list.codes_of(number).map(|c| (c.low, c.high)).collect()
    };
    let apart = |&(number, key): &(usize, u64)| {
        at(b, key).is_some_and(|other| entries(a, number) != entries(b, other))
    };
    let keys = a.signals.iter().map(key).enumerate();
    keys.filter(apart).map(|(_, key)| key).collect()
}

#[cfg(test)]
mod tests {
    use super::*;

    /// Both lists are good, and most pairs are not the same.
    #[test]
    fn pairs_of_good_lists() {
        for of in [Of::Signals, Of::Codes, Of::Routes] {
            let mut apart = 0;
            for case in 0..2_000 {
                let [a, b] = lists(&Random::of_case(17, case), of);
                assert!(is_good(&a) && is_good(&b), "{a:?} {b:?}");
                let plain = |list: &List| List {
                    form: 1,
                    ..list.clone()
                };
                apart += u64::from(plain(&a).octets() != plain(&b).octets());
            }
            assert!(apart > 1_200, "{of:?}: {apart} apart");
        }
    }
}
