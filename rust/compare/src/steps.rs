//! What a supplier may record of a step: the data after that our rules give, or those with something wrong in them; steps that follow on, or nearly so.

use std::mem;
use std::ops::Range;

use crate::case::{Call, Case};
use crate::damage::{damaged, mostly_good, said_form};
use crate::exhaustive::spoilt;
use crate::generate::{any_store, no_store, resized};
use crate::list::{List, Route};
use crate::random::Random;
use crate::{make, store};
use reference::Form;

/// No route ends behind this bit.
pub const ROUTED: u64 = 2_048;

/// The bits of the routes, of those that name a signal of the list.
pub fn fields(list: &List) -> Vec<Range<u64>> {
    let width = |route: &Route| Some(list.signals.get(route.signal as usize)?.width);
    let field = |route: &Route| Some(route.start..route.start + width(route)?);
    list.routes.iter().filter_map(field).collect()
}

/// The octets that the routes need.
pub fn needed(list: &List) -> usize {
    let ends = fields(list).into_iter().map(|field| field.end);
    ends.max().unwrap_or(0).div_ceil(8) as usize
}

/// The runs of bits that lie in no route: before them, between them, behind them.
fn gaps(fields: &[Range<u64>], bits: u64) -> Vec<Range<u64>> {
    let starts = [0].into_iter().chain(fields.iter().map(|field| field.end));
    let ends = fields.iter().map(|field| field.start).chain([bits]);
    let gaps = starts.zip(ends).map(|(start, end)| start..end);
    gaps.filter(|gap| !gap.is_empty()).collect()
}

/// Turns the bit at an address.
pub fn flip(data: &mut [u8], address: u64) {
    data[(address / 8) as usize] ^= 0x80 >> (address % 8);
}

fn bit_at(data: &[u8], address: u64) -> u8 {
    data[(address / 8) as usize] >> (7 - address % 8) & 1
}

/// Copies a bit.
fn copy(from: &[u8], to: &mut [u8], address: u64) {
    if bit_at(from, address) != bit_at(to, address) {
        flip(to, address);
    }
}

/// Routes laid anew: side by side, a bit apart, or farther; at times to the last bit that a route may have.
fn lay_routes(r: &Random, list: &mut List) {
    let mut at = r.of(&[0, 0, 1, 7, 8, 9, r.below(300), r.below(ROUTED)]);
    list.routes.clear();
    for _ in 0..r.within(1, 7) {
        let signal = r.index(list.signals.len());
        let start = at + r.of(&[0, 0, 0, 1, 1, 2, 7, 8, 9, 20]);
        at = start + list.signals[signal].width;
        if at > ROUTED {
            break;
        }
        list.routes.push(Route {
            signal: signal as u64,
            vehicle: r.of(&[1, 1, 2, 3, r.within(1, 63)]),
            zero: 0,
            start,
        });
    }
    if r.one_in(4) {
        if let Some(last) = list.routes.last_mut() {
            last.start = ROUTED - list.signals[last.signal as usize].width;
        }
    }
}

/// A good list, mostly with routes.
pub fn list(r: &Random) -> List {
    let mut list = match r.below(40) {
        0 => return make::longest(r),
        1..=9 => return make::list_with_routes(r),
        10..=25 => make::list_of_any_width(r),
        26..=32 => make::list_with_codes(r),
        _ => make::list_with_signals(r),
    };
    match list.signals.is_empty() || r.one_in(20) {
        true => list.routes.clear(),
        false => lay_routes(r, &mut list),
    }
    list
}

/// Data of a length that the routes have room in: as few octets as that takes, or more, also far more than routes can reach.
pub fn data(r: &Random, list: &List) -> Vec<u8> {
    let needed = needed(list);
    let len = match r.below(8) {
        0..=2 => needed,
        3 => needed + 1,
        4 => needed + r.index(40),
        5 => r.of(&[1, 255, 256, 257]).max(needed),
        6 => r.within(257, 700) as usize,
        _ => (needed + 8).max(258),
    };
    match r.below(4) {
        0 => vec![0; len],
        1 => vec![0xFF; len],
        _ => r.octets(len),
    }
}

/// A bit of a run: its first, its last, or any.
fn within(r: &Random, run: &Range<u64>) -> u64 {
    r.of(&[run.start, run.end - 1, r.within(run.start, run.end - 1)])
}

/// One of several: the first, the last, or any.
fn one_of<'a, T>(r: &Random, all: &'a [T]) -> &'a T {
    let last = all.len() - 1;
    &all[r.of(&[0, last, r.index(all.len())])]
}

/// A bit of the data, of which there are so many: mostly of a route, or beside one.
pub fn address(r: &Random, fields: &[Range<u64>], bits: u64) -> u64 {
    let gaps = gaps(fields, bits);
    match r.below(16) {
        0..=7 if !fields.is_empty() => within(r, one_of(r, fields)),
        8..=12 if !gaps.is_empty() => within(r, one_of(r, &gaps)),
        13 => bits - 1,
        14 => r
            .of(&[2_039, 2_040, 2_047, 2_048, 2_055, 2_056])
            .min(bits - 1),
        _ => r.below(bits),
    }
}

/// What our rules give.
fn ours(list: &List, store: &[u8], now: u32, before: &[u8]) -> Vec<u8> {
    let mut data = before.to_vec();
    // Refused, it stays as it was.
    let _ = reference::marshal(&list.octets(), Form::of(list.form), store, now, &mut data);
    data
}

/// As a supplier errs: nothing is written, one route is not, a field has its last bit first, all else is cleared, or it was done at another time.
fn errs(r: &Random, list: &List, store: &[u8], now: u32, before: &[u8], after: &mut Vec<u8>) {
    let fields = fields(list);
    match r.below(6) {
        0 => after.copy_from_slice(before),
        1 if !fields.is_empty() => {
            let field = one_of(r, &fields).clone();
            field.for_each(|address| copy(before, after, address));
        }
        2 if !fields.is_empty() => {
            let (field, right) = (one_of(r, &fields).clone(), after.clone());
            for (at, from) in field.clone().zip(field.rev()) {
                if bit_at(&right, from) != bit_at(&right, at) {
                    flip(after, at);
                }
            }
        }
        3 => *after = ours(list, store, now, &vec![r.of(&[0, 0xFF]); before.len()]),
        4 => *after = ours(list, store, store::clock(r), before),
        _ => *after = ours(list, &vec![0; store.len()], now, before),
    }
}

/// Makes data after that are right wrong: a bit, two, an octet, or as a supplier errs.
fn spoil(r: &Random, list: &List, store: &[u8], now: u32, before: &[u8], after: &mut Vec<u8>) {
    if after.is_empty() {
        return;
    }
    let (fields, bits) = (fields(list), 8 * after.len() as u64);
    match r.below(12) {
        0..=6 => flip(after, address(r, &fields, bits)),
        7 | 8 => (0..2).for_each(|_| flip(after, address(r, &fields, bits))),
        9 => after[(address(r, &fields, bits) / 8) as usize] = r.octet(),
        _ => errs(r, list, store, now, before, after),
    }
}

/// How many steps there were: mostly few enough.
fn steps(r: &Random) -> u64 {
    let few = r.below(1_000);
    match r.below(20) {
        0 => r.of(&[
            1_000,
            1_001,
            u64::MAX,
            r.beyond(few),
            (1 << 16) + few,
            (1 << 32) + few,
        ]),
        1 | 2 => 998,
        3 | 4 => 999,
        5 | 6 => few,
        7..=11 => 0,
        _ => 1,
    }
}

/// Other data than these, of the last step: a bit is another, or some are missing or too many.
fn broken(r: &Random, before: &[u8], after: &[u8]) -> Vec<u8> {
    let mut last = before.to_vec();
    match (r.below(8), last.len()) {
        (_, 0) | (0, _) => last.push(r.of(&[0, r.octet()])),
        (1, _) => drop(last.pop()),
        (2, _) => last.clear(),
        (3, len) => last.truncate(r.index(len)),
        (4, _) => last.extend(r.octets(9)),
        (5, len) => flip(&mut last, 8 * len as u64 - 1),
        (6, _) => last = after.to_vec(),
        (_, len) => flip(&mut last, r.below(8 * len as u64)),
    }
    last
}

pub fn check_step(r: &Random) -> Case {
    let (list, now) = (list(r), store::clock(r));
    let store = store::store(r, &list, now);
    let before = data(r, &list);
    let mut after = ours(&list, &store, now, &before);
    if !r.one_in(5) {
        spoil(r, &list, &store, now, &before, &mut after);
    }
    let steps = steps(r);
    let last = match r.one_in(if steps == 0 { 2 } else { 12 }) {
        true => broken(r, &before, &after),
        false => before.clone(),
    };
    let areas = vec![
        mostly_good(r, &list),
        last,
        any_store(r, store),
        before,
        after,
    ];
    let numbers = vec![said_form(r, &list), steps, now.into()];
    let mut case = Case::new(Call::CheckStep, areas, numbers);
    match r.below(16) {
        0 => shorten(r, &list, &mut case),
        1 => lengthen(r, &list, &mut case),
        2 | 3 => worsen(r, list, &mut case),
        _ => {}
    }
    case
}

/// Data before that are too short for the routes, with data after of the same length or of the one that they had.
fn shorten(r: &Random, list: &List, case: &mut Case) {
    let needed = needed(list);
    let len = r.of(&[needed.saturating_sub(1), needed / 2, 0]);
    case.areas[3].truncate(len);
    if r.one_in(2) {
        case.areas[4].truncate(len);
    }
}

/// Data after of another length.
fn lengthen(r: &Random, list: &List, case: &mut Case) {
    let (needed, len) = (needed(list), case.areas[3].len());
    let other = [
        len + 1,
        len + 1,
        len.saturating_sub(1),
        len + 256,
        needed / 2,
        0,
    ];
    let after = mem::take(&mut case.areas[4]);
    case.areas[4] = resized(r, after, r.of(&other));
}

/// Several faults, which come together by chance too seldom.
fn worsen(r: &Random, list: List, case: &mut Case) {
    if r.one_in(3) {
        case.numbers[1] = r.of(&[1_000, 1_001, u64::MAX]);
    }
    if r.one_in(2) {
        case.numbers[1] = case.numbers[1].max(1);
        case.areas[1] = broken(r, &case.areas[3], &case.areas[4]);
    }
    if r.one_in(3) {
        lengthen(r, &list, case);
    }
    if r.one_in(3) {
        shorten(r, &list, case);
    }
    if r.one_in(3) {
        case.areas[2] = no_store(r, mem::take(&mut case.areas[2]));
    }
    if r.one_in(3) {
        case.areas[0] = match list.signals.is_empty() {
            true => damaged(r, list),
            false => spoilt(&list.octets())[r.within(1, 4) as usize].clone(),
        };
    }
}

#[cfg(test)]
mod tests {
    use super::*;
    use crate::memory::on_heap;
    use crate::sides::by_reference;

    /// Made lists are good, and their data have room for the routes; what our rules give is right, and with a bit off that bit is named.
    #[test]
    fn right_but_for_a_bit() {
        for number in 0..3_000 {
            let r = Random::of_case(21, number);
            let (list, now) = (list(&r), store::clock(&r));
            let store = store::store(&r, &list, now);
            let before = data(&r, &list);
            let after = ours(&list, &store, now, &before);
            let areas = vec![list.octets(), vec![], store, before, after];
            let mut case = Case::new(Call::CheckStep, areas, vec![list.form, 0, now.into()]);
            let found = |case: &Case| on_heap(by_reference, case).answer;
            let right = found(&case);
            assert_eq!((right.refusal, right.gives[0]), (0, 1));
            let bits = 8 * case.areas[4].len() as u64;
            if bits > 0 {
                let address = address(&r, &fields(&list), bits);
                flip(&mut case.areas[4], address);
                let wrong = found(&case);
                assert_eq!(wrong.refusal, 0);
                assert_eq!(wrong.gives[..3], [0, address / 8, address % 8]);
                let inside = fields(&list).iter().any(|field| field.contains(&address));
                assert_eq!(wrong.gives[3], u64::from(inside));
            }
        }
    }
}
