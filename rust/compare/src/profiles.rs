//! Lists to be judged by a profile that are few enough to try them all.

use crate::case::{Call, Case};
use crate::exhaustive::{one_signal, spoilt, wide_l, L};
use crate::list::{Code, List, Route, Signal};
use crate::narrow::{DATA, LIMIT, ROWS, SIGNALS};

pub fn each(try_one: &mut impl FnMut(Case)) {
    numbers(try_one);
    r1_fields(try_one);
    limits(try_one);
    replacements(try_one);
    crowds(try_one);
    routes(try_one);
    one_breach(try_one);
}

/// The octets of a list in a form, judged by both profiles.
pub fn by_profiles(try_one: &mut impl FnMut(Case), list: &[u8], form: u64) {
    for profile in [1, 2] {
        let numbers = vec![form, profile];
        try_one(Case::new(Call::JudgeProfile, vec![list.to_vec()], numbers));
    }
}

/// A list judged by both profiles in both forms, with a serial number behind each signal.
fn in_profiles(try_one: &mut impl FnMut(Case), list: &List) {
    let mut list = list.clone();
    list.signals.iter_mut().for_each(|s| s.serial = 0x40C0);
    for form in [1, 2] {
        list.form = form;
        by_profiles(try_one, &list.octets(), form);
    }
}

/// Every number for a profile, with L in either form, good or refused.
fn numbers(try_one: &mut impl FnMut(Case)) {
    let lists = spoilt(&L).map(|list| (1, list));
    let lists = lists.into_iter().chain([(2, wide_l(0x40C0))]);
    for (form, list) in lists {
        for profile in 0..=255 {
            let numbers = vec![form, profile];
            try_one(Case::new(Call::JudgeProfile, vec![list.clone()], numbers));
        }
    }
}

/// One signal, with the longest limit, under one of these checks by its number.
fn one_narrow(kind: u64, start: u64, width: u64, checks: &[u64], check: u64) -> List {
    let mut list = one_signal(kind, start, width, 0);
    list.checks = checks.to_vec();
    (list.signals[0].check, list.signals[0].limit) = (check, LIMIT);
    list
}

/// R1 fields of every width from every bit around octets 47-73, under no check, and under every check of the table and one that is none of it:
/// where all of these are in the list, and where it is the only one, so that its number does not tell its place.
fn r1_fields(try_one: &mut impl FnMut(Case)) {
    let mut ask = |list: List| {
        let areas = vec![list.octets()];
        try_one(Case::new(Call::JudgeProfile, areas, vec![1, 2]));
    };
    let places: Vec<u64> = (320..=354).step_by(2).collect();
    for start in 356..=600 {
        for width in 1..=64 {
            for check in 0..=places.len() as u64 {
                ask(one_narrow(1, start, width, &places, check));
            }
        }
        for width in [1, 4, 8, 24] {
            places
                .iter()
                .for_each(|&place| ask(one_narrow(1, start, width, &[place], 1)));
        }
    }
}

/// Limits around those that are allowed, and some that are once they are cut to fewer bits, of every type.
fn limits(try_one: &mut impl FnMut(Case)) {
    for (kind, start) in [(0, 24), (1, 424), (2, 424)] {
        let mut list = one_narrow(kind, start, 4, &[16, 322], 1 + kind.min(1));
        let wide = (8..32).flat_map(|power| [0, 1, LIMIT].map(|n| (1 << power) + n));
        for limit in (0..=10).chain(LIMIT - 9..=LIMIT + 9).chain(wide) {
            list.signals[0].limit = limit;
            in_profiles(try_one, &list);
        }
    }
}

/// Every replacement of four bits against every code range, and two of them; and of fields that may have no codes.
fn replacements(try_one: &mut impl FnMut(Case)) {
    for (kind, start) in [(0, 24), (1, 424)] {
        let mut list = one_narrow(kind, start, 4, &[16, 322], 1 + kind);
        let code = |low, high| Code {
            signal: 0,
            low,
            high,
        };
        for replacement in 0..=15 {
            list.signals[0].replacement = replacement;
            for (low, high) in (0..=15).flat_map(|low| (low..=15).map(move |high| (low, high))) {
                list.codes = vec![code(low, high), code(15, 15)];
                in_profiles(try_one, &list);
                list.codes.pop();
                in_profiles(try_one, &list);
            }
        }
    }
    for width in [1, 16, 17, 48, 62] {
        let mut list = one_narrow(0, 18, width, &[16], 1);
        list.signals[0].replacement = list.signals[0].top_replacement();
        in_profiles(try_one, &list);
    }
}

/// Common signals of one bit, so many, of which one of those around the 65th is at fault, or none.
fn crowds(try_one: &mut impl FnMut(Case)) {
    for count in (0..=70).chain([127, 128, 129, 192, 255, 256]) {
        let mut list = one_narrow(0, 18, 1, &[16], 1);
        let bit = list.signals[0];
        list.signals = (0..count)
            .map(|n| Signal {
                start: 18 + n,
                ..bit
            })
            .collect();
        list.routes.truncate(count.min(1) as usize);
        in_profiles(try_one, &list);
        for at in SIGNALS - 3..list.signals.len().min(SIGNALS + 3) {
            list.signals[at].check = 0;
            in_profiles(try_one, &list);
            list.signals[at].check = 1;
        }
    }
}

/// Routes of every width around the end of the data, one and two of them, and far behind it.
fn routes(try_one: &mut impl FnMut(Case)) {
    for width in 1..=64 {
        for end in (DATA - 9..=DATA + 9).chain([width, 256, 2_047, 2_048]) {
            let mut list = one_narrow(0, 18, width, &[16], 1);
            list.routes[0].start = end - width;
            in_profiles(try_one, &list);
            let before = Route {
                start: 0,
                ..list.routes[0]
            };
            list.routes.insert(0, before);
            in_profiles(try_one, &list);
        }
    }
}

/// As many signals as a profile allows, of two bits: common ones, and two in each row of the R1 grouping. Each knows all codes but one, and is
/// routed.
fn most_narrow() -> List {
    let mut list = List {
        form: 1,
        checks: [16]
            .into_iter()
            .chain(ROWS.iter().map(|row| row.place))
            .collect(),
        ..List::default()
    };
    let common = SIGNALS - 2 * ROWS.len();
    let first = (0..common as u64).map(|n| (0, 18 + 2 * n, 1));
    let rows = (2..).zip(ROWS.iter());
    let rows = rows.flat_map(|(check, row)| [(1, row.first, check), (1, row.end - 2, check)]);
    for (signal, (kind, start, check)) in (0..).zip(first.chain(rows)) {
        list.signals.push(Signal {
            limit: LIMIT - signal,
            ..one_narrow(kind, start, 2, &[], check).signals[0]
        });
        list.codes.push(Code {
            signal,
            low: 0,
            high: 2,
        });
        list.routes.push(Route {
            signal,
            vehicle: 1 + signal % 63,
            zero: 0,
            start: 2 * signal,
        });
    }
    list
}

/// Each signal of these at fault, alone and with another and a route behind it; and each route with all behind it moved past the end.
fn one_breach(try_one: &mut impl FnMut(Case)) {
    let good = most_narrow();
    in_profiles(try_one, &good);
    for at in 0..SIGNALS {
        let broken = [
            |s: &mut Signal| s.check = 0,
            |s: &mut Signal| s.check = 17,
            |s: &mut Signal| s.limit = 0,
            |s: &mut Signal| s.limit = LIMIT + 1,
            |s: &mut Signal| s.replacement = 3,
            |s: &mut Signal| s.width += 1,
        ];
        for broken in broken {
            let mut list = good.clone();
            broken(&mut list.signals[at]);
            in_profiles(try_one, &list);
            list.signals[SIGNALS - 1].limit = 0;
            list.routes[SIGNALS - 1].start = DATA;
            in_profiles(try_one, &list);
        }
        let mut list = good.clone();
        let of_r1 = list.signals[at..].iter_mut().filter(|s| s.kind == 1);
        of_r1.for_each(|s| s.kind = 2);
        in_profiles(try_one, &list);
        let mut list = good.clone();
        for (n, route) in (0..).zip(&mut list.routes[at..]) {
            route.start = DATA - 1 + 2 * n;
        }
        in_profiles(try_one, &list);
    }
}

#[cfg(test)]
mod tests {
    use super::*;
    use reference::{Form, Profile};

    #[test]
    fn the_list_with_most_that_a_profile_allows_is_in_it() {
        let octets = most_narrow().octets();
        let [coach, trailer] = [Profile::PlainCoach, Profile::DrivingTrailer]
            .map(|profile| reference::judge_profile(profile, &octets, Form::One));
        assert_eq!(trailer, reference::judge(&octets, Form::One));
        assert!(trailer.is_ok_and(|counts| [counts.signals, counts.routes] == [64, 64]));
        // Behind 18 checks the first 30 signals are common.
        assert_eq!(coach.map_err(|at| at.carried), Err(40 + 16 * 30));
    }
}
