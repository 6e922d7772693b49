//! What a gateway reads every cycle: all signals of a vehicle or of a train, into areas of the lengths that they need, or of others.

use std::mem;

use crate::case::{Call, Case};
use crate::damage::{damaged, mostly_good, said_form};
use crate::exhaustive::spoilt;
use crate::generate::{any_store, no_store, vehicle};
use crate::list::List;
use crate::random::Random;
use crate::{make, store};
use reference::{STORE, VEHICLES};

/// A list to read all of: mostly with signals or with known codes, at times with none, or as long as it can be.
fn list(r: &Random) -> List {
    match r.below(80) {
        0 => make::longest(r),
        1..=5 => List {
            signals: vec![],
            codes: vec![],
            routes: vec![],
            ..make::list(r)
        },
        6..=30 => make::list_with_codes(r),
        31..=40 => make::list_of_any_width(r),
        _ => make::list_with_signals(r),
    }
}

/// How many values and reasons are lent, where so many signals of so many vehicles are read: mostly as many as are read.
fn lens(r: &Random, signals: usize, vehicles: usize) -> [usize; 2] {
    let fits = signals * vehicles;
    let other = || {
        r.of(&[
            fits + 1,
            fits.saturating_sub(1),
            0,
            signals,
            signals * (vehicles + 1),
            signals * vehicles.saturating_sub(1),
        ])
    };
    match r.below(20) {
        0 => [other(), fits],
        1 => [fits, other()],
        2 => [other(); 2],
        3 => [other(), other()],
        _ => [fits; 2],
    }
}

/// A case of a call that reads so many vehicles, with anything in the areas, which a refusal must leave there.
fn case(r: &Random, call: Call, list: List, store: Vec<u8>, [now, of]: [u64; 2]) -> Case {
    let vehicles = match (call, of) {
        (Call::ReadTrain, 0..=64) => of as usize,
        _ => 1,
    };
    let [values, reasons] = lens(r, list.signals.len(), vehicles);
    let areas = vec![
        mostly_good(r, &list),
        any_store(r, store),
        r.octets(reasons),
    ];
    let mut case = Case::new(call, areas, vec![said_form(r, &list), now, of]);
    case.values = (0..values).map(|_| r.word()).collect();
    if r.one_in(8) {
        worsen(r, list, &mut case);
    }
    case
}

pub fn read_all(r: &Random) -> Case {
    let (list, now) = (list(r), store::clock(r));
    let store = store::store(r, &list, now);
    case(r, Call::ReadAll, list, store, [now.into(), vehicle(r)])
}

/// The last vehicle to be read: mostly that of a short train.
fn last(r: &Random) -> u64 {
    match r.below(24) {
        0 => r.of(&[0, 64, 65, 255, 256, u64::MAX]),
        1 => r.beyond(r.of(&[1, 2, 63])),
        2 => r.of(&[1, 62, 63]),
        3 | 4 => 63,
        5..=7 => r.within(1, 63),
        _ => r.within(1, 5),
    }
}

/// A train in which most are heard; those behind it at times too.
pub fn read_train(r: &Random) -> Case {
    let (list, now, last) = (list(r), store::clock(r), last(r));
    let mut store = vec![0; STORE];
    let heard = match last {
        1..=63 if !r.one_in(3) => last as usize,
        _ => VEHICLES,
    };
    (1..=heard).for_each(|vehicle| store::hear(r, &mut store, vehicle, &list, now));
    case(r, Call::ReadTrain, list, store, [now.into(), last])
}

/// Several faults, which come together by chance too seldom.
fn worsen(r: &Random, list: List, case: &mut Case) {
    if r.one_in(2) {
        case.areas[0] = match list.signals.is_empty() {
            true => damaged(r, list),
            false => spoilt(&list.octets())[r.within(1, 4) as usize].clone(),
        };
    }
    if r.one_in(2) {
        case.areas[1] = no_store(r, mem::take(&mut case.areas[1]));
    }
    if r.one_in(2) {
        case.numbers[2] = r.of(&[0, 64, 65, 255, u64::MAX, r.beyond(1)]);
    }
    match r.below(4) {
        0 => case.areas[2].push(r.octet()),
        1 => case.values.push(r.word()),
        2 => drop(case.values.pop()),
        _ => {}
    }
}
