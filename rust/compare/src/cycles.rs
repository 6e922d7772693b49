//! Readings of all signals of a vehicle and of a train that are few enough to try them all.

use crate::case::{Call, Case};
use crate::exhaustive::{large, most_signals, other_lengths, spoilt};
use crate::list::{Code, List, Signal};
use crate::store::plant;
use reference::{write_field, STORE, TELEGRAM, VEHICLES};

pub fn each(try_one: &mut impl FnMut(Case)) {
    vehicles(try_one);
    one_heard(try_one);
    one_other(try_one);
    codes(try_one);
    lengths(try_one);
    faults(try_one);
    forms(try_one);
    most(try_one);
}

/// A list and a store, read under a form at a clock value: of one vehicle, or up to it. So many values and reasons are lent, none of which is one
/// that is read.
pub fn reading(call: Call, areas: &[Vec<u8>], numbers: [u64; 3], entries: usize) -> Case {
    into(call, areas, numbers, [entries; 2])
}

fn into(call: Call, areas: &[Vec<u8>], numbers: [u64; 3], lens: [usize; 2]) -> Case {
    let areas = [areas, &[vec![0xEE; lens[1]]]].concat();
    Case {
        values: vec![0xEEEE_EEEE_EEEE_EEEE; lens[0]],
        ..Case::new(call, areas, numbers.to_vec())
    }
}

/// So many signals of four bits from R1 octet 54 on, each with its replacement.
fn nibbles(signals: u64) -> List {
    let signal = |number| Signal {
        start: 8 * 53 + 4 * number,
        width: 4,
        kind: 1,
        check: 0,
        since: 1,
        limit: 5_000,
        replacement: 15 - number,
        serial: 0,
    };
    List {
        form: 1,
        signals: (0..signals).map(signal).collect(),
        ..List::default()
    }
}

/// An R1 of version 1 with this octet from 54 on.
fn r1(octet: u8) -> [u8; TELEGRAM] {
    let mut telegram = [0; TELEGRAM];
    telegram[..2].copy_from_slice(&[0x11, 1]);
    telegram[53..].fill(octet);
    telegram
}

/// A store in which every vehicle says another octet.
fn all_heard() -> Vec<u8> {
    let mut store = vec![0; STORE];
    for vehicle in 1..=VEHICLES {
        plant(&mut store, vehicle, 1, 0, &r1(vehicle as u8));
    }
    store
}

/// Every number for a vehicle and for a last one, with areas for as many as it says, or for one.
fn vehicles(try_one: &mut impl FnMut(Case)) {
    let areas = [nibbles(2).octets(), all_heard()];
    for of in (0..=300).chain(large()) {
        try_one(reading(Call::ReadAll, &areas, [1, 0, of], 2));
        for vehicles in [1, of & 0x3F, of & 0xFF] {
            let entries = 2 * vehicles as usize;
            try_one(reading(Call::ReadTrain, &areas, [1, 0, of], entries));
        }
    }
}

/// Each vehicle heard alone, in trains of every length.
fn one_heard(try_one: &mut impl FnMut(Case)) {
    for vehicle in 1..=VEHICLES {
        let mut store = vec![0; STORE];
        plant(&mut store, vehicle, 1, 0, &r1(0x5A));
        let areas = [nibbles(3).octets(), store];
        for last in 1..=VEHICLES {
            let numbers = [1, 5_000, last as u64];
            try_one(reading(Call::ReadTrain, &areas, numbers, 3 * last));
            try_one(reading(Call::ReadAll, &areas, numbers, 3));
        }
    }
}

/// The longest train, of which each vehicle is lost alone in another way: it is late, expired, of another type or no R-telegram's.
fn one_other(try_one: &mut impl FnMut(Case)) {
    let mut telegram = r1(0x5A);
    for (heard, head, stamp) in [(1, 0x11, 9), (2, 0x11, 10), (1, 0x12, 10), (1, 0x21, 10)] {
        telegram[0] = head;
        for vehicle in 1..=VEHICLES {
            let mut store = all_heard();
            plant(&mut store, vehicle, heard, stamp, &telegram);
            let areas = [nibbles(2).octets(), store];
            let numbers = [1, 5_000, VEHICLES as u64];
            try_one(reading(Call::ReadTrain, &areas, numbers, 2 * VEHICLES));
        }
    }
}

/// Signals that know some codes among such that know all: of each of four none, one or two entries, and three vehicles that say every code.
fn codes(try_one: &mut impl FnMut(Case)) {
    let known: [&[(u64, u64)]; 3] = [&[], &[(3, 6)], &[(0, 1), (9, 15)]];
    for which in 0..3usize.pow(4) {
        let mut list = nibbles(4);
        for signal in 0..4 {
            let ranges = known[which / 3usize.pow(signal) % 3].iter();
            let signal = signal.into();
            list.codes
                .extend(ranges.map(|&(low, high)| Code { signal, low, high }));
        }
        for code in 0..16 {
            let mut store = vec![0; STORE];
            for (vehicle, code) in [(1, code), (2, 15 - code), (3, code ^ 1)] {
                plant(&mut store, vehicle, 1, 0, &r1(17 * code));
            }
            let areas = [list.octets(), store];
            try_one(reading(Call::ReadTrain, &areas, [1, 0, 3], 12));
            try_one(reading(Call::ReadAll, &areas, [1, 0, 3], 4));
        }
    }
}

/// Each length of both areas, up to more than twice what it must be, with no signal, one or two.
fn lengths(try_one: &mut impl FnMut(Case)) {
    for signals in 0..=2 {
        let areas = [nibbles(signals).octets(), all_heard()];
        for (call, of) in [
            (Call::ReadAll, 1),
            (Call::ReadAll, 63),
            (Call::ReadTrain, 1),
            (Call::ReadTrain, 2),
            (Call::ReadTrain, 4),
        ] {
            for lens in (0..=20).flat_map(|v| (0..=20).map(move |r| [v, r])) {
                try_one(into(call, &areas, [1, 0, of], lens));
            }
        }
        for last in 0..=64 {
            for around in [last - 1, last, last + 1, 63, 64] {
                let entries = (signals as i64 * around).max(0) as usize;
                let numbers = [1, 0, last as u64];
                try_one(reading(Call::ReadTrain, &areas, numbers, entries));
            }
        }
    }
}

/// All that a reading can be refused for, alone and together.
fn faults(try_one: &mut impl FnMut(Case)) {
    let lens = [
        [0, 0],
        [1, 2],
        [2, 1],
        [2, 2],
        [2, 3],
        [126, 126],
        [126, 127],
    ];
    for list in spoilt(&nibbles(2).octets()) {
        for len in [STORE].into_iter().chain(other_lengths()) {
            let mut store = all_heard();
            store.resize(len, 0);
            let areas = [list.clone(), store];
            for of in [0, 1, 63, 64, 257, (1 << 32) + 1, u64::MAX] {
                for (call, lens) in [Call::ReadAll, Call::ReadTrain]
                    .iter()
                    .flat_map(|&call| lens.map(|lens| (call, lens)))
                {
                    try_one(into(call, &areas, [1, 0, of], lens));
                }
            }
        }
    }
}

/// Every number for a form, said with a list of three signals in either form.
fn forms(try_one: &mut impl FnMut(Case)) {
    for (list_form, form) in [1, 2].iter().flat_map(|&l| (0..=255).map(move |f| (l, f))) {
        let mut list = nibbles(3);
        list.form = list_form;
        list.signals.iter_mut().for_each(|s| s.serial = 0x40C0);
        let areas = [list.octets(), all_heard()];
        try_one(reading(Call::ReadAll, &areas, [form, 0, 2], 3));
        try_one(reading(Call::ReadTrain, &areas, [form, 0, 2], 6));
    }
}

/// As many signals as there can be, in both forms, of every vehicle and of trains of every length; all types, and all marks in turn.
fn most(try_one: &mut impl FnMut(Case)) {
    let mut list = most_signals();
    let mut store = vec![0; STORE];
    for vehicle in 1..=VEHICLES {
        let kind = 1 + vehicle % 3;
        let len = if kind == 3 { 40 } else { TELEGRAM };
        let mut telegram = vec![37 * vehicle as u8; len];
        telegram[..2].copy_from_slice(&[0x10 | kind as u8, 4 * vehicle as u8]);
        let checks = list.checks.iter().map(|&check| check as usize);
        for (number, check) in checks.enumerate().filter(|(_, c)| c + 2 <= 8 * len) {
            let mark = (vehicle + number) / 3 % 4;
            write_field(&mut telegram, check, 2, mark as u64);
        }
        plant(&mut store, vehicle, 1, 0, &telegram);
    }
    for form in [1, 2] {
        list.form = form;
        let areas = [list.octets(), store.clone()];
        let signals = list.signals.len();
        for of in 1..=VEHICLES {
            let numbers = [form, 50_000, of as u64];
            try_one(reading(Call::ReadAll, &areas, numbers, signals));
            try_one(reading(Call::ReadTrain, &areas, numbers, signals * of));
        }
    }
}
