//! Two lists, the second made from the first: some extend it, some miss by little.

use crate::damage;
use crate::list::{Code, List, Signal};
use crate::make;
use crate::random::Random;
use reference::{Extends, Form};

/// The two, and the forms that are said with them.
pub fn pair(r: &Random) -> (Vec<Vec<u8>>, Vec<u64>) {
    if r.one_in(12) {
        return [damage::any_list(r), damage::any_list(r)]
            .into_iter()
            .unzip();
    }
    let a = make::list(r);
    let mut b = a.clone();
    for _ in 0..r.of(&[0, 1, 1, 1, 2, 3]) {
        edit(r, &mut b, a.version());
    }
    if r.one_in(2) {
        make::lay_out(r, &mut b, make::form(r));
    }
    lent(r, [a, b])
}

/// Two lists as they are lent, some of them damaged, and some the other way round.
pub fn lent(r: &Random, lists: [List; 2]) -> (Vec<Vec<u8>>, Vec<u64>) {
    let mut pair = lists.map(|list| {
        let form = damage::said_form(r, &list);
        (damaged_rarely(r, list), form)
    });
    if r.one_in(8) {
        pair.reverse();
    }
    pair.into_iter().unzip()
}

/// A list that extends another: of some edits those that keep what it promised.
pub fn extension(r: &Random, a: &List) -> List {
    let mut b = a.clone();
    for _ in 0..r.below(9) {
        let mut edited = b.clone();
        edit(r, &mut edited, a.version());
        if extends(a, &edited) {
            b = edited;
        }
    }
    if r.one_in(2) {
        make::lay_out(r, &mut b, make::form(r));
    }
    b
}

fn extends(a: &List, b: &List) -> bool {
    let (form, other) = (Form::of(a.form), Form::of(b.form));
    reference::extends(&a.octets(), form, &b.octets(), other) == Extends::Yes
}

fn damaged_rarely(r: &Random, list: List) -> Vec<u8> {
    match r.below(30) {
        0 => damage::damaged(r, list),
        _ => list.octets(),
    }
}

/// One change, in half of all cases one that keeps what the list promised.
fn edit(r: &Random, list: &mut List, version: u64) {
    match r.below(8) {
        0 | 1 => add_signal(r, list, version),
        2 if !list.signals.is_empty() => lose_signal(r, list),
        3 | 4 if !list.signals.is_empty() => edit_signal(r, list),
        5 if !list.codes.is_empty() => edit_codes(r, list),
        6 => edit_checks(r, list),
        _ => edit_rest(r, list),
    }
}

pub fn add_signal(r: &Random, list: &mut List, version: u64) {
    let kind = r.below(3);
    let (first, end) = Signal::region(kind);
    let width = r.of(&[r.within(1, 20), r.within(1, 20), r.within(47, 64)]);
    for _ in 0..20 {
        let start = r.within(first, end - width);
        if list.signals.len() < 256 && list.is_free(kind, start, width) {
            let since = r.of(&[version + 1, version + 1, 255, version, 1]).min(255);
            let signal = make::signal(r, &list.checks, kind, start, width);
            list.insert_signal(Signal { since, ..signal });
            return;
        }
    }
}

/// A signal less, a signal moved by a bit, or the same signal twice.
fn lose_signal(r: &Random, list: &mut List) {
    let at = r.index(list.signals.len());
    let signal = list.signals[at];
    if r.one_in(2) {
        list.remove_signal(at);
    }
    if r.one_in(2) {
        let start = r.near(signal.start) & 1023;
        if list.is_free(signal.kind, start, signal.width) {
            list.insert_signal(Signal { start, ..signal });
        }
    }
}

fn edit_signal(r: &Random, list: &mut List) {
    let at = r.index(list.signals.len());
    let checks = list.checks.len() as u64;
    let s = &mut list.signals[at];
    match r.below(9) {
        0 | 1 => s.limit = r.below(600_001),
        2 | 3 => s.replacement = r.word() & s.top_replacement(),
        4 => s.since = r.near(s.since).clamp(1, 255),
        5 => s.start = r.near(s.start) & 1023,
        6 => s.width = r.near(s.width).clamp(1, 64),
        7 => s.check = r.below(checks + 1),
        _ => s.kind = 3 - s.kind.clamp(1, 2),
    }
}

pub fn edit_codes(r: &Random, list: &mut List) {
    let at = r.index(list.codes.len());
    let Code { signal, low, high } = list.codes[at];
    let top = list.signals[signal as usize].top();
    match r.below(9) {
        0 => list.codes[at].low = low.saturating_sub(1),
        1 => list.codes[at].high = (high + 1).min(top),
        2 => list.codes[at].low = (low + 1).min(high),
        3 => list.codes[at].high = high.saturating_sub(1).max(low),
        4 if high.saturating_sub(low) >= 2 => {
            // Split in two: one code is lost.
            let lost = r.within(low + 1, high - 1);
            list.codes[at].high = lost - 1;
            let upper = Code {
                signal,
                low: lost + 1,
                high,
            };
            list.codes.insert(at + 1, upper);
        }
        5 => {
            list.codes.remove(at);
        }
        6 => list.codes.retain(|c| c.signal != signal),
        7 => {
            // All codes by one range.
            list.codes.retain(|c| c.signal != signal);
            let at = list.codes.partition_point(|c| c.signal < signal);
            list.codes.insert(
                at,
                Code {
                    signal,
                    low: 0,
                    high: top,
                },
            );
        }
        _ => {
            // Joined with the range behind it.
            if list.codes.get(at + 1).is_some_and(|c| c.signal == signal) {
                let behind = list.codes.remove(at + 1);
                list.codes[at].high = behind.high;
            }
        }
    }
}

/// Checks more or less: signals name the same places by other numbers.
fn edit_checks(r: &Random, list: &mut List) {
    if list.checks.is_empty() || r.one_in(2) {
        let place = 2 * r.within(8, 511);
        if list.checks.len() < 64 && (0..3).all(|kind| list.is_free(kind, place, 2)) {
            list.insert_check(place);
        }
        return;
    }
    let at = r.index(list.checks.len());
    let named = |s: &Signal| s.check == at as u64 + 1;
    match r.below(3) {
        0 => list.checks[at] = list.checks[at].wrapping_add(r.of(&[2, u64::MAX - 1])),
        1 if list.signals.iter().any(named) => {}
        _ => list.remove_check(at),
    }
}

/// A signal that knew all codes knows some or, by an entry, all; routes are another list's matter.
fn edit_rest(r: &Random, list: &mut List) {
    if list.signals.is_empty() || r.one_in(2) {
        list.routes.truncate(r.index(list.routes.len() + 1));
        return;
    }
    let number = r.index(list.signals.len());
    let s = list.signals[number];
    if s.width > 16 || list.codes.len() == 512 || list.codes_of(number).next().is_some() {
        return;
    }
    let signal = number as u64;
    let at = list.codes.partition_point(|c| c.signal < signal);
    let (low, high) = (r.of(&[0, 0, 1]), s.top() - r.of(&[0, 0, 1]));
    list.codes.insert(at, Code { signal, low, high });
}
