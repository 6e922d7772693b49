//! Makers of lists, stores and values.

use super::plain::{self, Code, List, Route, Signal};
use super::{Random, HEAD, HEARD, SIGNAL_SIZE, SLOT, STAMP, STORE};

/// The greatest value of so many bits, 1 to 64. A replacement has 48 at most.
fn top(width: u64) -> u64 {
    u64::MAX >> (64 - width)
}

/// A good list. `full` asks for as many entries as fit.
pub fn list(r: &mut Random, full: bool) -> List {
    let wide = if full {
        10
    } else {
        r.of(&[3, 8, 16, 20, 48, 64])
    };
    list_up_to(r, full, wide)
}

/// A good list with no signal wider than `wide` bits.
pub fn list_up_to(r: &mut Random, full: bool, wide: u64) -> List {
    let mut list = List::default();
    let checks = if full { 64 } else { r.below(12) };
    let mut places: Vec<u64> = (0..checks)
        .map(|_| {
            2 * if r.one_in(2) {
                r.within(8, 159)
            } else {
                r.within(160, 511)
            }
        })
        .collect();
    places.sort();
    places.dedup();
    list.checks = places;

    let versions = r.of(&[1, 1, 3, 6, 255]);
    for kind in 0..=2 {
        if !full && r.one_in(4) {
            continue;
        }
        let (mut at, end) = if kind == 0 { (16, 320) } else { (320, 1024) };
        let gaps = if full { 3 } else { r.of(&[1, 4, 40, 200]) };
        while list.signals.len() < 256 {
            let (start, width) = (at + r.below(gaps), r.within(1, wide));
            if start + width > end {
                break;
            }
            if let Some(&check) = list
                .checks
                .iter()
                .find(|&&c| start < c + 2 && c < start + width)
            {
                at = check + 2;
                continue;
            }
            let check = match r.below(list.checks.len() as u64 + 1) {
                0 => 0,
                k if (list.checks[k as usize - 1] < 320) == (kind == 0) => k,
                _ => 0,
            };
            list.signals.push(Signal {
                start,
                width,
                kind,
                check,
                since: r.within(1, versions),
                limit: r.of(&[0, 1, 100, 5000, 600_000]),
                replacement: r.word() & top(width.min(48)),
            });
            at = start + width;
        }
    }
    for (i, s) in list.signals.iter().enumerate() {
        if s.width > 16 || r.one_in(3) {
            continue;
        }
        if r.one_in(12) {
            if list.codes.len() < 512 {
                list.codes.push(Code {
                    signal: i as u64,
                    low: 0,
                    high: (1 << s.width) - 1,
                });
            }
            continue;
        }
        let mut at = r.below(3);
        let span = r.of(&[1, 3, 1 << s.width]);
        while at < 1 << s.width && list.codes.len() < 512 && !r.one_in(8) {
            let low = (at + r.below(span)).min((1 << s.width) - 1);
            let high = (low + r.below(span)).min((1 << s.width) - 1);
            list.codes.push(Code {
                signal: i as u64,
                low,
                high,
            });
            at = high + 2;
        }
    }
    if !list.signals.is_empty() {
        let gaps = r.of(&[1, 2, 30, 300]);
        let fleet = r.of(&[1, 2, 63]);
        let mut at = 0;
        while list.routes.len() < 512 && (full || !r.one_in(40)) {
            let signal = r.below(list.signals.len() as u64);
            let start = at + r.below(gaps);
            at = start + list.signals[signal as usize].width;
            if at > 2048 {
                break;
            }
            list.routes.push(Route {
                signal,
                vehicle: r.within(1, fleet),
                zero: 0,
                start,
            });
        }
    }
    list
}

/// The list's octets with something done to them.
pub fn spoiled(r: &mut Random, list: &List) -> Vec<u8> {
    let mut octets = list.octets();
    for _ in 0..r.within(1, 2) {
        match r.below(9) {
            8 => {
                // A count one more, one less or far too many.
                let at = r.below(4) as usize;
                let sizes = [
                    2 * list.checks.len(),
                    SIGNAL_SIZE * list.signals.len(),
                    6 * list.codes.len(),
                ];
                let count = 2 * at + sizes[..at].iter().sum::<usize>();
                if let Some(octet) = octets.get_mut(count + r.below(2) as usize) {
                    *octet = r.of(&[octet.wrapping_add(1), octet.wrapping_sub(1), 65, 3]);
                }
            }
            0 => octets.truncate(r.below(octets.len() as u64 + 1) as usize),
            1 => octets.push(r.word() as u8),
            2 | 3 if !octets.is_empty() => {
                let at = r.below(octets.len() as u64) as usize;
                octets[at] ^= 1 << r.below(8);
            }
            4 if !octets.is_empty() => {
                let at = r.below(octets.len() as u64) as usize;
                octets[at] = r.of(&[0, 1, 2, 3, 16, 17, 48, 49, 63, 64, 65, 255]);
            }
            5 if octets.len() > 16 => {
                // An entry swapped with its neighbour, or near enough.
                let (at, by) = (r.below(octets.len() as u64 - 12) as usize, r.of(&[2, 6]));
                for i in 0..by {
                    octets.swap(at + i, at + by + i);
                }
            }
            _ if !octets.is_empty() => {
                // A number one off.
                let at = r.below(octets.len() as u64) as usize;
                octets[at] = octets[at].wrapping_add(r.of(&[1, 255]));
            }
            _ => {}
        }
    }
    octets
}

/// The plain list with one number changed, not judged.
pub fn changed(r: &mut Random, list: &List) -> List {
    let mut list = list.clone();
    let step = |r: &mut Random, n: &mut u64| {
        *n = if r.one_in(2) {
            *n + 1
        } else {
            n.saturating_sub(1)
        }
    };
    match r.below(10) {
        0 if !list.checks.is_empty() => {
            let i = r.below(list.checks.len() as u64) as usize;
            list.checks[i] = if r.one_in(2) {
                list.checks[i] + 2
            } else {
                list.checks[i].saturating_sub(2)
            };
        }
        1 if !list.checks.is_empty() => {
            // A check less: later ones are renumbered, so the places named stay.
            let i = r.below(list.checks.len() as u64);
            list.checks.remove(i as usize);
            for s in &mut list.signals {
                s.check = if s.check > i + 1 {
                    s.check - 1
                } else if s.check == i + 1 {
                    0
                } else {
                    s.check
                };
            }
        }
        2 | 3 if !list.signals.is_empty() => {
            let i = r.below(list.signals.len() as u64) as usize;
            let s = &mut list.signals[i];
            match r.below(6) {
                0 => step(r, &mut s.start),
                1 => step(r, &mut s.width),
                2 => step(r, &mut s.check),
                3 => step(r, &mut s.since),
                4 => s.limit = r.below(600_001),
                _ => s.replacement = r.word() & top(s.width.min(48)),
            }
        }
        4 | 5 if !list.signals.is_empty() => {
            // A signal less, with all that names it.
            let i = r.below(list.signals.len() as u64);
            list.signals.remove(i as usize);
            list.codes.retain(|c| c.signal != i);
            list.routes.retain(|c| c.signal != i);
            for c in &mut list.codes {
                c.signal -= u64::from(c.signal > i);
            }
            for c in &mut list.routes {
                c.signal -= u64::from(c.signal > i);
            }
        }
        6 if !list.codes.is_empty() => {
            let i = r.below(list.codes.len() as u64) as usize;
            let c = &mut list.codes[i];
            if r.one_in(2) {
                step(r, &mut c.low)
            } else {
                step(r, &mut c.high)
            }
        }
        7 if !list.codes.is_empty() => {
            list.codes.remove(r.below(list.codes.len() as u64) as usize);
        }
        8 if !list.codes.is_empty() => {
            let signal = list.codes[r.below(list.codes.len() as u64) as usize].signal;
            list.codes.retain(|c| c.signal != signal);
        }
        _ => {
            list.routes.clear();
        }
    }
    list
}

/// A store in which most vehicles were heard not long before `now`.
pub fn store(r: &mut Random, now: u32) -> Vec<u8> {
    let mut store = r.octets(STORE);
    for slot in store.chunks_mut(SLOT) {
        slot[HEARD] = r.of(&[0, 1, 1, 1, 1, 1, 1, 2, 255]);
        let age = r.of(&[
            0,
            1,
            2,
            99,
            100,
            101,
            4999,
            5000,
            5001,
            600_000,
            600_001,
            u32::MAX,
        ]);
        slot[STAMP].copy_from_slice(&now.wrapping_sub(age).to_be_bytes());
        let telegram = &mut slot[HEAD..];
        telegram[0] = r.of(&[
            0x11, 0x12, 0x13, 0x11, 0x12, 0x13, 0x11, 0x12, 0x13, 0x10, 0x14, 0x01, 0x21, 0xF1,
        ]);
        telegram[1] = r.of(&[0, 1, 2, 3, 5, 254, 255]);
        if r.one_in(3) {
            // Small values, and marks all ok or all forced.
            let mark = r.of(&[0x55, 0xAA]);
            telegram[2..].fill(mark);
        }
    }
    store
}

/// A value for each signal: mostly one that is known.
pub fn values(r: &mut Random, list: &List) -> Vec<u64> {
    (0..)
        .zip(&list.signals)
        .map(|(i, s)| match list.codes.iter().find(|c| c.signal == i) {
            Some(c) => r.within(c.low, c.high),
            None => r.word() & top(s.width),
        })
        .collect()
}

/// Gives every signal a replacement that it knows.
pub fn know_replacements(r: &mut Random, list: &mut List) {
    for i in 0..list.signals.len() {
        let s = &list.signals[i];
        if !list.knows(i as u64, s.replacement) {
            let known: Vec<&Code> = list.codes.iter().filter(|c| c.signal == i as u64).collect();
            let range = r.of(&known);
            list.signals[i].replacement = r.within(range.low, range.high);
        }
    }
}

/// A list in the profile of driving trailers; where no R1 signals are asked for, in that of plain coaches too.
pub fn list_in_profile(r: &mut Random, r1: bool) -> List {
    let mut list = List {
        checks: vec![16, 18, 24],
        ..List::default()
    };
    let common = list.checks.len() as u64;
    let wide = r.of(&[1, 4, 16, 20, 64]);
    let end = r.of(&[40, 100, 320]);
    fill(r, &mut list, 0, (26, end), wide, |r| r.within(1, common));
    let every = r.of(&[1, 2, 8]);
    for place in (320..=352).step_by(2) {
        if r1 && r.one_in(every) {
            list.checks.push(place);
            let check = list.checks.len() as u64;
            fill(r, &mut list, 1, row(place), wide, |_| check);
        }
    }
    list.signals.truncate(64);
    narrow_codes(r, &mut list);
    narrow_routes(r, &mut list);
    list
}

/// The bits under a check place of the table, from the first to before the end.
fn row(place: u64) -> (u64, u64) {
    let mut bits = (368..584).filter(|&bit| plain::check_place(bit) == Some(place));
    let first = bits.next().unwrap();
    (first, 1 + bits.next_back().unwrap())
}

/// Signals of a type in these bits, each under a check.
fn fill(
    r: &mut Random,
    list: &mut List,
    kind: u64,
    (mut at, end): (u64, u64),
    wide: u64,
    check: impl Fn(&mut Random) -> u64,
) {
    loop {
        let (start, width) = (at + r.of(&[0, 0, 1, 7]), r.within(1, wide));
        if start + width > end {
            return;
        }
        list.signals.push(Signal {
            start,
            width,
            kind,
            check: check(r),
            since: r.within(1, 3),
            limit: r.of(&[1, 2, 1_000, 4_999, 5_000]),
            replacement: r.word() & top(width.min(48)),
        });
        at = start + width;
    }
}

/// Codes, among them the replacement, of some of the signals that may have any.
fn narrow_codes(r: &mut Random, list: &mut List) {
    for (signal, s) in (0..).zip(&list.signals) {
        if s.width > 16 || r.one_in(3) {
            continue;
        }
        let low = s.replacement.saturating_sub(r.of(&[0, 0, 3]));
        let high = (s.replacement + r.of(&[0, 0, 3])).min(top(s.width));
        let mut ranges = vec![(low, high)];
        if low >= 2 && r.one_in(2) {
            ranges.insert(0, (0, low - 2));
        }
        if high + 2 <= top(s.width) && r.one_in(2) {
            ranges.push((high + 2, top(s.width)));
        }
        let codes = ranges.into_iter();
        list.codes
            .extend(codes.map(|(low, high)| Code { signal, low, high }));
    }
}

/// Routes within 16 octets.
fn narrow_routes(r: &mut Random, list: &mut List) {
    let mut at = 0;
    while !list.signals.is_empty() && !r.one_in(30) {
        let signal = r.below(list.signals.len() as u64);
        let start = at + r.of(&[0, 0, 3]);
        at = start + list.signals[signal as usize].width;
        if at > 128 {
            return;
        }
        list.routes.push(Route {
            signal,
            vehicle: r.within(1, 63),
            zero: 0,
            start,
        });
    }
}

/// Breaks a rule of the profiles, or comes near to it; at times the list is no good any more.
pub fn near_breach(r: &mut Random, list: &mut List) {
    if list.signals.is_empty() {
        return;
    }
    let checks = list.checks.len() as u64;
    let i = r.below(list.signals.len() as u64) as usize;
    let s = &mut list.signals[i];
    match r.below(9) {
        0 => s.limit = r.of(&[0, 1, 5_000, 5_001, 600_000]),
        1 => s.check = 0,
        2 => s.check = r.within(1, checks),
        3 => s.start = r.of(&[s.start + 1, s.start - 1]),
        4 => s.width = (s.width + 1).min(64),
        5 => s.replacement = r.word() & top(s.width.min(48)),
        6 => {
            let of_r1 = list.signals[i..].iter_mut().filter(|s| s.kind == 1);
            of_r1.for_each(|s| s.kind = 2);
        }
        7 => {
            let start = 128 + r.of(&[0, 1, 500]) - s.width;
            list.routes.push(Route {
                signal: i as u64,
                vehicle: 1,
                zero: 0,
                start,
            });
        }
        _ => crowd(list, r.of(&[63, 64, 65, 66])),
    }
}

/// So many signals, or a few more: those that are not common, and before them common ones of one bit.
fn crowd(list: &mut List, wanted: usize) {
    list.signals.retain(|s| s.kind != 0);
    list.codes.clear();
    list.routes.clear();
    let missing = wanted.saturating_sub(list.signals.len()) as u64;
    let common = (26..26 + missing).map(|start| Signal {
        start,
        width: 1,
        kind: 0,
        check: 1,
        since: 1,
        limit: 1,
        replacement: 0,
    });
    list.signals.splice(0..0, common);
}
