//! Steps of recordings that are few enough to try them all: each bit of the data wrong alone, each two, each octet before and after; how many steps
//! there were, how they follow on, and all that can be refused.

use crate::case::{Call, Case};
use crate::exhaustive::{
    l_heard, large, most_signals, one_signal, other_lengths, saying, spoilt, wide_l, L,
};
use crate::list::{Code, List, Route, Signal, MOST};
use crate::steps::{flip, needed, ROUTED};
use crate::store::plant;
use reference::{write_field, Form, STORE, TELEGRAM, VEHICLES};

pub fn each(try_one: &mut impl FnMut(Case)) {
    each_bit(try_one);
    each_two(try_one);
    octets(try_one);
    widths(try_one);
    readings(try_one);
    most_routes(try_one);
    counts(try_one);
    lasts(try_one);
    lengths(try_one);
    forms(try_one);
    faults(try_one);
}

/// A step with how many before it, and the data after of the last of them.
struct Step<'a> {
    list: &'a [u8],
    form: u64,
    steps: u64,
    last: &'a [u8],
    store: &'a [u8],
    clock: u64,
    before: &'a [u8],
}

impl Step<'_> {
    fn with(&self, after: &[u8]) -> Case {
        let areas = [self.list, self.last, self.store, self.before, after];
        let numbers = vec![self.form, self.steps, self.clock];
        Case::new(Call::CheckStep, areas.map(<[u8]>::to_vec).to_vec(), numbers)
    }

    /// What our rules give; refused, it stays as it was.
    fn ours(&self) -> Vec<u8> {
        let (mut data, form) = (self.before.to_vec(), Form::of(self.form));
        let _ = reference::marshal(self.list, form, self.store, self.clock as u32, &mut data);
        data
    }

    /// The data after right, and with each of these bits wrong alone.
    fn each_wrong(&self, try_one: &mut impl FnMut(Case), bits: impl Iterator<Item = u64>) {
        let mut after = self.ours();
        try_one(self.with(&after));
        for address in bits {
            flip(&mut after, address);
            try_one(self.with(&after));
            flip(&mut after, address);
        }
    }
}

/// The first step under a list, at 0.
fn first<'a>(list: &'a [u8], store: &'a [u8], before: &'a [u8]) -> Step<'a> {
    Step {
        list,
        form: 1,
        steps: 0,
        last: &[],
        store,
        clock: 0,
        before,
    }
}

fn field(start: u64, width: u64, since: u64) -> Signal {
    Signal {
        start,
        width,
        kind: 1,
        check: 0,
        since,
        limit: 5_000,
        replacement: 0x55 & ((1 << width.min(48)) - 1),
        serial: 0x40C0,
    }
}

fn route(signal: u64, vehicle: u64, start: u64) -> Route {
    Route {
        signal,
        vehicle,
        zero: 0,
        start,
    }
}

/// Routes (signal, vehicle, start): side by side, a bit apart, an octet apart, over nine octets, to the end of an octet or into it, to the last bit
/// that there may be, and none.
const ROUTES: [&[(u64, u64, u64)]; 7] = [
    &[
        (0, 1, 3),
        (0, 2, 4),
        (1, 1, 5),
        (0, 3, 13),
        (3, 1, 22),
        (0, 1, 36),
        (2, 1, 37),
    ],
    &[(2, 1, 0), (2, 3, 64), (0, 1, 128), (0, 2, 129), (1, 1, 130)],
    &[
        (0, 1, 0),
        (0, 3, 2),
        (2, 1, 4),
        (3, 2, 69),
        (1, 1, 89),
        (0, 1, 96),
    ],
    &[(3, 1, 7), (0, 1, 27), (2, 1, 1_983), (0, 3, 2_047)],
    &[(1, 1, 2_041)],
    &[(0, 1, 2_046)],
    &[],
];

/// Each of these over signals of 1, 7, 64 and 13 bits, of which the second is newer than any telegram and the last knows few codes.
fn laid_out() -> Vec<List> {
    let signals = [(330, 1, 1), (400, 7, 9), (501, 64, 1), (600, 13, 1)];
    let signals = signals.map(|(start, width, since)| field(start, width, since));
    let codes = vec![Code {
        signal: 3,
        low: 0,
        high: 99,
    }];
    let list = |routes: &[(u64, u64, u64)]| List {
        form: 1,
        signals: signals.to_vec(),
        codes: codes.clone(),
        routes: routes.iter().map(|&(s, v, at)| route(s, v, at)).collect(),
        ..List::default()
    };
    ROUTES.map(list).to_vec()
}

/// Vehicle 1 was heard at 0 with these octets, vehicle 2 never, vehicle 3 has expired.
fn heard(octet: u8) -> Vec<u8> {
    let mut telegram = [octet; TELEGRAM];
    telegram[..2].copy_from_slice(&[0x11, 1]);
    let mut store = vec![0; STORE];
    plant(&mut store, 1, 1, 0, &telegram);
    plant(&mut store, 3, 2, 0, &telegram);
    store
}

/// Each bit of the data wrong alone, under each of these lists in both forms, with as few octets as there may be, with one more, and with more than
/// routes can reach.
fn each_bit(try_one: &mut impl FnMut(Case)) {
    for (mut list, form) in laid_out()
        .into_iter()
        .flat_map(|l| [1, 2].map(|f| (l.clone(), f)))
    {
        list.form = form;
        let (octets, needed) = (list.octets(), needed(&list));
        // One pattern does in form 2, which changes no data.
        let patterns = &[0xA6, 0xFF][..if form == 1 { 2 } else { 1 }];
        for (len, &octet) in [needed, needed + 1, 258]
            .iter()
            .flat_map(|&n| patterns.iter().map(move |o| (n, o)))
        {
            let (store, before) = (heard(!octet), vec![octet; len]);
            let step = Step {
                form,
                steps: 7,
                last: &before,
                ..first(&octets, &store, &before)
            };
            step.each_wrong(try_one, 0..8 * len as u64);
        }
    }
    let (octets, store, before) = (laid_out()[3].octets(), heard(0x5A), vec![0x3C; 700]);
    first(&octets, &store, &before).each_wrong(try_one, 0..8 * 700);
}

/// Each two bits of few octets wrong, and all bits from each on.
fn each_two(try_one: &mut impl FnMut(Case)) {
    for list in laid_out().iter().filter(|list| needed(list) <= 20) {
        let (octets, store, before) = (list.octets(), heard(0x69), vec![0xC3; needed(list)]);
        let step = first(&octets, &store, &before);
        let (right, bits) = (step.ours(), 8 * before.len() as u64);
        for one in 0..bits {
            let mut after = right.clone();
            flip(&mut after, one);
            for other in one + 1..bits {
                flip(&mut after, other);
                try_one(step.with(&after));
                flip(&mut after, other);
            }
            (one + 1..bits).for_each(|address| flip(&mut after, address));
            try_one(step.with(&after));
        }
    }
}

/// L from every octet to every octet, live; and every octet after, as it is replaced.
fn octets(try_one: &mut impl FnMut(Case)) {
    let live = l_heard(1, [(1, 0x11), (2, 1), (41, 0x10), (54, 0x60)]);
    for (before, after) in (0..=255).flat_map(|before| (0..=255).map(move |after| (before, after)))
    {
        try_one(first(&L, &live, &[before]).with(&[after]));
    }
    let silent = vec![0; STORE];
    (0..=255).for_each(|after| try_one(first(&L, &silent, &[0xA5]).with(&[after])));
}

/// A route of every width from every bit of an octet, live and replaced, with each of its bits wrong, and those beside it.
fn widths(try_one: &mut impl FnMut(Case)) {
    for (width, bit) in (1..=64).flat_map(|width| (0..8).map(move |bit| (width, bit))) {
        let list = one_signal(1, 424, width, 8 + bit);
        let octets = list.octets();
        for store in [
            saying(&list.signals[0], 0x9669_A55A_3CC3_F00F, 1, 0x5A),
            vec![0; STORE],
        ] {
            let before = [0x5A; 11];
            let step = first(&octets, &store, &before);
            step.each_wrong(try_one, 7 + bit..=8 + bit + width);
        }
    }
}

/// L with every head, every version, every mark and every code, at the ages around its limit: right, wrong in the route, and behind it.
fn readings(try_one: &mut impl FnMut(Case)) {
    let mut check = |heard: u8, octets: [(usize, u8); 4], clock: u64| {
        let store = l_heard(heard, octets);
        let step = Step {
            clock,
            ..first(&L, &store, &[0x9A])
        };
        step.each_wrong(try_one, [0, 3, 4].into_iter());
    };
    for any in 0..=255 {
        check(any, [(1, 0x11), (2, 1), (41, 0x10), (54, 0x40)], 5_000);
        check(1, [(1, any), (2, 1), (41, 0x10), (54, 0x40)], 5_000);
        check(1, [(1, 0x11), (2, any), (41, 0x10), (54, 0x40)], 5_000);
        check(1, [(1, 0x11), (2, 1), (41, any), (54, 0x40)], 5_000);
        check(1, [(1, 0x11), (2, 1), (41, 0x20), (54, any)], 5_000);
    }
    for clock in [0, 1, 4_999, 5_000, 5_001, u64::from(u32::MAX)] {
        for heard in [1, 2] {
            check(heard, [(1, 0x11), (2, 1), (41, 0x10), (54, 0x40)], clock);
        }
    }
}

/// As many signals and routes as there can be, of all vehicles, with a bit between two routes or none; most are of common signals, the narrower ones.
fn with_most_routes() -> List {
    let mut list = most_signals();
    let common = list.signals.partition_point(|s| s.kind == 0) as u64;
    let others = list.signals.len() as u64 - common;
    let mut at = 0;
    for number in 0..MOST[3] as u64 {
        let signal = match number % 16 {
            5 => common + number % others,
            _ => number % common,
        };
        let start = at + u64::from(number % 3 == 0);
        list.routes
            .push(route(signal, 1 + number % VEHICLES as u64, start));
        at = start + list.signals[signal as usize].width;
    }
    list
}

/// Each bit of the data wrong alone, under as many routes as there can be.
fn most_routes(try_one: &mut impl FnMut(Case)) {
    let list = with_most_routes();
    let mut store = vec![0; STORE];
    for vehicle in (1..=VEHICLES).filter(|vehicle| vehicle % 4 != 0) {
        let mut telegram = [(37 * vehicle) as u8; TELEGRAM];
        telegram[..2].copy_from_slice(&[0x11 + (vehicle % 2) as u8, 255]);
        for &check in &list.checks {
            write_field(
                &mut telegram,
                check as usize,
                2,
                (vehicle as u64 + check) % 4,
            );
        }
        plant(&mut store, vehicle, 1, 0, &telegram);
    }
    let (octets, before) = (list.octets(), vec![0x96; 257]);
    first(&octets, &store, &before).each_wrong(try_one, 0..ROUTED + 8);
}

/// Every number of steps up to some too many, and far more, following on or not, right or wrong.
fn counts(try_one: &mut impl FnMut(Case)) {
    let store = vec![0; STORE];
    for steps in (0..=1_100).chain(large()) {
        for (last, after) in [0xAB, 0xAA]
            .iter()
            .flat_map(|&last| [0x0B, 0x0A].map(|after| (last, after)))
        {
            let step = Step {
                steps,
                last: &[last],
                ..first(&L, &store, &[0xAB])
            };
            try_one(step.with(&[after]));
        }
    }
}

/// The data after of the last step: with each bit another, of every length, and as they are now.
fn lasts(try_one: &mut impl FnMut(Case)) {
    let (store, before) = (vec![0; STORE], vec![0x96; 300]);
    let right = first(&L, &store, &before).ours();
    let mut follow = |last: &[u8], steps: &[u64]| {
        for &steps in steps {
            let step = Step {
                steps,
                last,
                ..first(&L, &store, &before)
            };
            try_one(step.with(&right));
        }
    };
    follow(&before, &[0, 1, 2, 998, 999, 1_000]);
    follow(&right, &[0, 1, 999]);
    let mut last = before.clone();
    for address in 0..8 * before.len() as u64 {
        flip(&mut last, address);
        follow(&last, &[0, 1]);
        flip(&mut last, address);
    }
    let longer = [&before[..], &[0x96; 40]].concat();
    (0..=longer.len()).for_each(|len| follow(&longer[..len], &[0, 1, 999]));
}

/// Data before and after of every few octets, under a list that needs none, one, two, or as many as a route can.
fn lengths(try_one: &mut impl FnMut(Case)) {
    let store = vec![0; STORE];
    let to = |start: u64| one_signal(1, 424, 9, start).octets();
    let most = [0, 1, 2, 254, 255, 256, 257, 700];
    let few: Vec<usize> = (0..=6).chain([255, 256, 257]).collect();
    for (list, lens) in [
        (vec![0; 8], &few[..]),
        (L.to_vec(), &few),
        (to(0), &few),
        (to(8), &few),
        (to(ROUTED - 9), &most),
    ] {
        for (before, after) in lens.iter().flat_map(|&b| lens.iter().map(move |&a| (b, a))) {
            for (steps, last) in [(0, 0), (1, before), (1, after), (999, 0)] {
                let (before, last) = (vec![0x6B; before], vec![0x6B; last]);
                let step = Step {
                    steps,
                    last: &last,
                    ..first(&list, &store, &before)
                };
                let mut right = step.ours();
                right.resize(after, 0x6B);
                try_one(step.with(&right));
            }
        }
    }
}

/// Every number for a form, said with L in either form: right, and wrong.
fn forms(try_one: &mut impl FnMut(Case)) {
    let store = vec![0; STORE];
    for form in 0..=255 {
        for list in [L.to_vec(), wide_l(0x40C0)] {
            let step = Step {
                form,
                ..first(&list, &store, &[0xAB])
            };
            for after in [0x0B, 0x1B, 0x0A, 0xAB] {
                try_one(step.with(&[after]));
            }
        }
    }
}

/// All that a step can be refused for, alone and together, and a wrong bit beside.
fn faults(try_one: &mut impl FnMut(Case)) {
    let list = one_signal(1, 424, 9, 0).octets();
    for (list, len) in spoilt(&list).iter().flat_map(|l| {
        [STORE]
            .into_iter()
            .chain(other_lengths())
            .map(move |n| (l, n))
    }) {
        let store = vec![0; len];
        for (steps, last) in [0, 1, 999, 1_000, u64::MAX]
            .iter()
            .flat_map(|&s| [0x6B, 0x6A].map(|l| (s, l)))
        {
            for (before, after) in
                (0..=3).flat_map(|before| (0..=3).map(move |after| (before, after)))
            {
                let (before, last) = (vec![0x6B; before], vec![last; before]);
                let step = Step {
                    steps,
                    last: &last,
                    ..first(list, &store, &before)
                };
                let mut right = step.ours();
                right.resize(after, 0x6B);
                try_one(step.with(&right));
                if let Some(octet) = right.last_mut() {
                    *octet ^= 1;
                    try_one(step.with(&right));
                }
            }
        }
    }
}

#[cfg(test)]
mod tests {
    use super::*;

    #[test]
    fn the_lists_are_good() {
        for list in laid_out() {
            assert!(reference::judge(&list.octets(), Form::One).is_ok());
        }
        let counts = reference::judge(&with_most_routes().octets(), Form::One).unwrap();
        assert_eq!([counts.signals, counts.routes], [MOST[1], MOST[3]]);
    }
}
