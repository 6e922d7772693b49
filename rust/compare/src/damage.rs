//! Lists that are damaged at one place, cut, extended, or no lists at all. Some of the damage does no harm.

use crate::list::{sizes, List, Signal, MOST};
use crate::make;
use crate::random::Random;

/// A list to be judged, good, damaged, or random octets, and the form that is said with it.
pub fn any_list(r: &Random) -> (Vec<u8>, u64) {
    let list = make::list(r);
    let form = said_form(r, &list);
    let octets = match r.below(16) {
        0 => random_list(r),
        1..=8 => damaged(r, list),
        _ => list.octets(),
    };
    (octets, form)
}

/// The form that is said with a list: mostly its own; at times any, so that a list of one form is taken in the other.
pub fn said_form(r: &Random, list: &List) -> u64 {
    match r.below(20) {
        0 => make::form(r),
        _ => list.form,
    }
}

/// Mostly the list as it is; at times damaged.
pub fn mostly_good(r: &Random, list: &List) -> Vec<u8> {
    match r.below(12) {
        0 => damaged(r, list.clone()),
        _ => list.octets(),
    }
}

fn random_list(r: &Random) -> Vec<u8> {
    let len = r.of(&[1, 2, 3, 30, 200, 12_000]);
    let len = r.index(len);
    let mut octets = r.octets(len);
    if r.one_in(2) {
        // Counts within their limits.
        for octet in octets.iter_mut().take(2) {
            *octet = r.of(&[0, 0, 1]);
        }
    }
    octets
}

pub fn damaged(r: &Random, mut list: List) -> Vec<u8> {
    match r.below(10) {
        0 => damage_octets(r, list.octets()),
        1 => damage_count(r, &list),
        2 => {
            let mut octets = list.octets();
            octets.truncate(cut(r, &list, octets.len()));
            octets
        }
        3 => {
            let mut octets = list.octets();
            let more = r.of(&[1, 1, 2, 6, 300]);
            octets.extend(r.octets(more));
            octets
        }
        _ => {
            damage_entry(r, &mut list);
            list.octets()
        }
    }
}

/// Where a list is cut: anywhere, or inside or beside what stands last in a signal entry, in form 2 the serial number.
fn cut(r: &Random, list: &List, len: usize) -> usize {
    let size = sizes(list.form)[1];
    match list.signals.len() {
        signals if signals > 0 && r.one_in(3) => {
            let entry = 2 + 2 * list.checks.len() + 2 + size * r.index(signals);
            entry + size - r.index(4)
        }
        _ => r.index(len),
    }
}

fn damage_octets(r: &Random, mut octets: Vec<u8>) -> Vec<u8> {
    let at = r.index(octets.len());
    match r.below(5) {
        0 => octets[at] = r.octet(),
        1 => octets[at] ^= 1 << r.below(8),
        2 => octets[at] = octets[at].wrapping_add(r.of(&[1, 255])),
        3 => {
            octets.remove(at);
        }
        _ => octets.insert(at, r.octet()),
    }
    octets
}

/// One of the counts is another.
fn damage_count(r: &Random, list: &List) -> Vec<u8> {
    let mut octets = list.octets();
    let counts = [
        list.checks.len(),
        list.signals.len(),
        list.codes.len(),
        list.routes.len(),
    ];
    let section = r.index(4);
    let at: usize = (0..section)
        .map(|i| 2 + sizes(list.form)[i] * counts[i])
        .sum();
    let count = counts[section] as u64;
    let most = MOST[section] as u64;
    let count = r.of(&[
        count + 1,
        count.wrapping_sub(1),
        0,
        most,
        most + 1,
        256,
        65_535,
    ]);
    octets[at..at + 2].copy_from_slice(&(count as u16).to_be_bytes());
    octets
}

/// One entry has another number in it: at the edge of its rule, or past it.
fn damage_entry(r: &Random, list: &mut List) {
    let section = r.below(6);
    match section {
        0 if !list.checks.is_empty() => damage_check(r, list),
        1 if !list.codes.is_empty() => damage_code(r, list),
        2 if !list.routes.is_empty() => damage_route(r, list),
        _ if !list.signals.is_empty() => damage_signal(r, list),
        _ => list.checks.insert(
            0,
            r.of(&[0, 14, 15, 16, 17, 1021, 1022, 1023, 1024, 65_535]),
        ),
    }
}

fn damage_check(r: &Random, list: &mut List) {
    let at = r.index(list.checks.len());
    let before = if at == 0 { 16 } else { list.checks[at - 1] };
    let place = list.checks[at];
    let off = [
        place + 1,
        place + 2,
        place - 1,
        before,
        before + 2,
        before - 2,
    ];
    let edges = [0, 14, 15, 16, 318, 320, 1022, 1023, 1024, 65_534];
    list.checks[at] = if r.one_in(2) {
        r.of(&off)
    } else {
        r.of(&edges)
    };
}

fn damage_signal(r: &Random, list: &mut List) {
    let at = r.index(list.signals.len());
    let before = if at == 0 {
        16
    } else {
        list.signals[at - 1].end()
    };
    let check = if list.checks.is_empty() {
        16
    } else {
        r.of(&list.checks)
    };
    let checks = list.checks.len() as u64;
    let s = &mut list.signals[at];
    let end = Signal::region(s.kind).1;
    match r.below(13) {
        0 => s.width = r.of(&[0, 1, 48, 49, 63, 64, 65, 66, 128, 255]),
        1 => s.width = r.near(s.width),
        2 => s.kind = r.of(&[0, 1, 2, 3, 255]),
        3 => s.start = r.near(s.start),
        4 => s.start = r.of(&[0, 14, 15, 16, 319, 320, 1_023, 1_024, 65_535]),
        5 => s.start = r.of(&[before, before.wrapping_sub(1)]),
        6 => s.start = end + r.below(2) - s.width.min(end),
        7 => {
            s.start = r.of(&[
                check + 1,
                check + 2,
                (check + 1).wrapping_sub(s.width),
                check.wrapping_sub(s.width),
            ])
        }
        8 => s.check = r.of(&[0, checks, checks + 1, 255, r.within(1, checks + 1)]),
        9 => s.since = r.of(&[0, 1, 255]),
        10 => s.limit = r.of(&[0, 600_000, 600_001, 0x0100_0000, 0xFFFF_FFFF]),
        11 => s.replacement = r.of(&[s.top(), s.top().wrapping_add(1), (1 << 48) - 1]),
        _ => {
            let other = r.index(list.signals.len());
            list.signals.swap(at, other);
        }
    }
}

fn damage_code(r: &Random, list: &mut List) {
    let at = r.index(list.codes.len());
    let before = if at == 0 { 0 } else { list.codes[at - 1].high };
    let signals = list.signals.len() as u64;
    let c = &mut list.codes[at];
    let top = list.signals.get(c.signal as usize).map_or(0, Signal::top);
    match r.below(9) {
        0 => c.signal = r.of(&[signals, signals + 1, 256, 65_535]),
        1 => c.signal = r.near(c.signal),
        2 => c.low = r.of(&[before, before + 1, before + 2]),
        3 => c.low = r.of(&[c.high, c.high + 1, 0]),
        4 => c.high = r.of(&[top, top + 1, 65_535]),
        5 => c.high = r.near(c.high),
        6 => c.low = r.near(c.low),
        7 => {
            // A range of a field that may be too wide for codes.
            let wide = |s: &&mut Signal| s.width == 16 || s.width == 17;
            if let Some(s) = list.signals.iter_mut().find(wide) {
                s.width = 33 - s.width;
            }
        }
        _ => {
            let other = r.index(list.codes.len());
            list.codes.swap(at, other);
        }
    }
}

fn damage_route(r: &Random, list: &mut List) {
    let at = r.index(list.routes.len());
    let width = |signal: u64| list.signals.get(signal as usize).map_or(0, |s| s.width);
    let before = match at {
        0 => 0,
        _ => list.routes[at - 1].start + width(list.routes[at - 1].signal),
    };
    let signals = list.signals.len() as u64;
    let past = 2048 - width(list.routes[at].signal);
    let route = &mut list.routes[at];
    match r.below(8) {
        0 => route.signal = r.of(&[signals, signals + 1, 256, 65_535]),
        1 => route.signal = r.below(signals),
        2 => route.vehicle = r.of(&[0, 1, 63, 64, 255]),
        3 => route.zero = r.of(&[1, 128, 255]),
        4 => route.start = r.of(&[past, past + 1, 2047, 2048, 65_535]),
        5 => route.start = r.of(&[before, before.wrapping_sub(1)]),
        6 => route.start = r.near(route.start),
        _ => {
            let other = r.index(list.routes.len());
            list.routes.swap(at, other);
        }
    }
}
