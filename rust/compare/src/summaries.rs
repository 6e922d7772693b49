//! Trains, what their vehicles say of their doors, and lists with doors and without, that are few enough to try them all.

use crate::case::{Call, Case};
use crate::doors::{LEFT, RIGHT};
use crate::exhaustive::{large, most_signals, other_lengths, spoilt};
use crate::list::{Code, List, Signal};
use crate::store::plant;
use reference::{STORE, TELEGRAM, VEHICLES};

pub fn each(try_one: &mut impl FnMut(Case)) {
    one(try_one);
    few(try_one);
    addresses(try_one);
    one_alone(try_one);
    all_alike(try_one);
    so_many(try_one);
    bits(try_one);
    octets(try_one);
    ages(try_one);
    places(try_one);
    codes(try_one);
    forms(try_one);
    faults(try_one);
    among_most(try_one);
}

/// Marks of both sides in octet 3, ok, and both sides locked in octet 20.
const OK: u8 = 0x50;
const LOCKED: u8 = 0x0C;

/// The octets 3 and 20 that a vehicle was heard with at 0; none, where it was never heard.
type Said = Option<(u8, u8)>;

const FINE: Said = Some((OK, LOCKED));

/// Ways to be held up: open on the left, on the right, on both sides, an error on the left, undefined on the right, never heard.
const HELD_UP: [Said; 6] = [
    Some((OK, 0x04)),
    Some((OK, 0x08)),
    Some((OK, 0x00)),
    Some((0x10, LOCKED)),
    Some((0x70, LOCKED)),
    None,
];

fn field(kind: u64, start: u64, width: u64, check: u64) -> Signal {
    Signal {
        start,
        width,
        kind,
        check,
        since: 1,
        limit: 5_000,
        replacement: 0,
        serial: 0,
    }
}

/// Both doors and nothing else: the left under octet 3 bits 0-1, the right under bits 2-3.
fn both() -> List {
    List {
        form: 1,
        checks: vec![16, 18],
        signals: vec![field(0, LEFT, 1, 1), field(0, RIGHT, 1, 2)],
        ..List::default()
    }
}

/// An R3 of version 1.
fn r3((octet_3, octet_20): (u8, u8)) -> [u8; 40] {
    let mut telegram = [0; 40];
    telegram[..3].copy_from_slice(&[0x13, 1, octet_3]);
    telegram[19] = octet_20;
    telegram
}

/// A store in which a train says so, vehicle 1 first.
fn heard(train: &[Said]) -> Vec<u8> {
    let mut store = vec![0; STORE];
    for (vehicle, said) in (1..=VEHICLES).zip(train) {
        if let &Some(said) = said {
            plant(&mut store, vehicle, 1, 0, &r3(said));
        }
    }
    store
}

/// All vehicles that there can be, as the first so many of them say, and as all the others do.
fn all_heard(train: &[Said], others: Said) -> Vec<u8> {
    let mut all = train.to_vec();
    all.resize(VEHICLES, others);
    heard(&all)
}

/// A vehicle 1 with this heard octet and this telegram.
fn one_heard(heard: u8, telegram: &[u8]) -> Vec<u8> {
    let mut store = vec![0; STORE];
    plant(&mut store, 1, heard, 0, telegram);
    store
}

fn summary(list: &List, store: &[u8], clock: u64, marks: &[u8], address: u64) -> Case {
    let areas = vec![list.octets(), store.to_vec(), marks.to_vec()];
    Case::new(Call::Doors, areas, vec![list.form, clock, address])
}

/// So many coaches, all asked.
fn coaches(list: &List, store: &[u8], clock: u64, count: usize) -> Case {
    summary(list, store, clock, &vec![2; count], 66)
}

/// One vehicle with every pair of marks and every octet 20.
fn one(try_one: &mut impl FnMut(Case)) {
    for (marks, octet_20) in (0..16).flat_map(|marks| (0..=255).map(move |o| (marks, o))) {
        let store = heard(&[Some((marks << 4, octet_20))]);
        try_one(coaches(&both(), &store, 0, 1));
    }
}

/// Every train of up to so many vehicles that each say one of these; all behind them are open.
fn trains(try_one: &mut impl FnMut(Case), most: u32, ways: &[Said]) {
    for len in 1..=most {
        for number in 0..ways.len().pow(len) {
            let said = (0..len).map(|at| ways[number / ways.len().pow(at) % ways.len()]);
            let train: Vec<Said> = said.collect();
            let store = all_heard(&train, Some((OK, 0)));
            try_one(coaches(&both(), &store, 0, train.len()));
        }
    }
}

/// Up to four vehicles of which each side is locked, open or marked as error, or that were not heard; up to six that are all marked ok.
fn few(try_one: &mut impl FnMut(Case)) {
    let sides = [0, 1, 2].map(|left| [0, 1, 2].map(|right| [left, right]));
    let said = |[left, right]: [usize; 2]| {
        let octet_3 = [0x40, 0x40, 0x00][left] | [0x10, 0x10, 0x00][right];
        let octet_20 = [0x08, 0x00, 0x08][left] | [0x04, 0x00, 0x04][right];
        Some((octet_3, octet_20))
    };
    let ways = sides.as_flattened().iter().map(|&sides| said(sides));
    let ways: Vec<Said> = ways.chain([None]).collect();
    trains(try_one, 4, &ways);
    let live = [0x00, 0x04, 0x08, 0x0C].map(|octet_20| Some((OK, octet_20)));
    trains(try_one, 6, &[&live[..], &[None]].concat());
}

/// A train of all kinds, in which one is held up or one alone is not, at every address.
fn addresses(try_one: &mut impl FnMut(Case)) {
    let marks = [5, 2, 18, 12, 0, 0xE6];
    for (at, said) in (0..=marks.len()).flat_map(|at| HELD_UP.map(|said| (at, said))) {
        let one = |alone: Said, others: Said| {
            let mut train = [others; 7];
            train[at] = alone;
            heard(&train)
        };
        for store in [one(said, FINE), one(FINE, said)] {
            for address in (0..=100).chain([255, 256 + 66, 1 << 32 | 67, u64::MAX]) {
                try_one(summary(&both(), &store, 0, &marks, address));
            }
        }
    }
    for address in large() {
        try_one(summary(&both(), &heard(&[FINE]), 0, &[0; 63], address));
    }
}

/// In trains of every length each vehicle that is held up alone, also one behind the train.
fn one_alone(try_one: &mut impl FnMut(Case)) {
    for (at, said) in (0..VEHICLES).flat_map(|at| HELD_UP.map(|said| (at, said))) {
        let mut train = [FINE; VEHICLES];
        train[at] = said;
        let store = heard(&train);
        for len in 1..=VEHICLES {
            try_one(coaches(&both(), &store, 0, len));
        }
    }
}

/// Trains of every length, all of whose vehicles say the same, at the addresses that mean something and beside.
fn all_alike(try_one: &mut impl FnMut(Case)) {
    let forced = Some((0xA0, LOCKED));
    for said in HELD_UP.into_iter().chain([FINE, forced]) {
        let store = heard(&[said; VEHICLES]);
        for (len, mark) in (0..=65).flat_map(|len| [0, 12, 22].map(|mark| (len, mark))) {
            let mut marks = vec![mark; len];
            if let Some(first) = marks.first_mut() {
                *first = 3;
            }
            for address in [0, 1, 2, 62, 63, 64, 65, 66, 67, 68, 70, 92] {
                try_one(summary(&both(), &store, 0, &marks, address));
            }
        }
    }
}

/// The first so many, or the last, of the longest train are held up.
fn so_many(try_one: &mut impl FnMut(Case)) {
    for (count, said) in (0..=VEHICLES).flat_map(|count| HELD_UP.map(|said| (count, said))) {
        let (mut first, mut last) = ([FINE; VEHICLES], [FINE; VEHICLES]);
        first[..count].fill(said);
        last[VEHICLES - count..].fill(said);
        for train in [first, last] {
            try_one(coaches(&both(), &heard(&train), 0, VEHICLES));
        }
    }
}

/// Every bit of an R1 of a vehicle that is fine, changed alone; and of one all of whose other bits are set.
fn bits(try_one: &mut impl FnMut(Case)) {
    let fine = r3((OK, LOCKED));
    for (others, bit) in [0, 0xFF]
        .iter()
        .flat_map(|o| (0..8 * TELEGRAM).map(move |b| (o, b)))
    {
        let mut telegram = [*others; TELEGRAM];
        for octet in [0, 1, 2, 19] {
            telegram[octet] = fine[octet];
        }
        telegram[0] = 0x11;
        telegram[bit / 8] ^= 0x80 >> (bit % 8);
        try_one(coaches(&both(), &one_heard(1, &telegram), 0, 1));
    }
}

/// Every heard octet, every head, and every version under several since-versions of the left door.
fn octets(try_one: &mut impl FnMut(Case)) {
    let mut list = both();
    for octet in 0..=255 {
        let fine = r3((OK, LOCKED));
        try_one(coaches(&list, &one_heard(octet, &fine), 0, 1));
        let mut head = fine;
        head[0] = octet;
        try_one(coaches(&list, &one_heard(1, &head), 0, 1));
    }
    let sinces = [1, 2, 3, 127, 128, 254, 255];
    for (since, version) in sinces.iter().flat_map(|s| (0..=255).map(move |v| (s, v))) {
        list.signals[0].since = *since;
        let mut telegram = r3((OK, LOCKED));
        telegram[1] = version;
        try_one(coaches(&list, &one_heard(1, &telegram), 0, 1));
    }
}

/// Clocks around the limits of both doors, of vehicles that were heard or have expired.
fn ages(try_one: &mut impl FnMut(Case)) {
    let limits = [0, 1, 5_000, 600_000];
    for (left, right) in limits.iter().flat_map(|&l| limits.map(|r| (l, r))) {
        let mut list = both();
        (list.signals[0].limit, list.signals[1].limit) = (left, right);
        let clocks = limits.iter().flat_map(|&n| [n, n + 1, n.saturating_sub(1)]);
        for clock in clocks.chain([1 << 31, u64::from(u32::MAX)]) {
            for (heard, octet_20) in [1, 2, 3].iter().flat_map(|&h| [0, LOCKED].map(|o| (h, o))) {
                let store = one_heard(heard, &r3((OK, octet_20)));
                try_one(coaches(&list, &store, clock, 1));
                try_one(coaches(&list, &store, clock, 2));
            }
        }
    }
}

/// Two fields of every type in and beside the places of the doors, of one bit and of more; and each alone.
fn places(try_one: &mut impl FnMut(Case)) {
    let store = heard(&[FINE; 2]);
    let fields = |kind| {
        let starts = (LEFT - 5..=RIGHT + 5).map(move |start| start + 304 * u64::from(kind > 0));
        starts.flat_map(move |start| [1, 2, 3].map(|width| field(kind, start, width, 0)))
    };
    let all: Vec<Signal> = (0..=2).flat_map(fields).collect();
    let mut ask = |signals: &[Signal]| {
        let list = List {
            form: 1,
            signals: signals.to_vec(),
            ..List::default()
        };
        try_one(coaches(&list, &store, 0, 2));
    };
    for first in &all {
        ask(&[*first]);
        // Of R1 or R2 in the octets of the common ones: the list is refused.
        ask(&[field(1 + first.kind % 2, first.start, first.width, 0)]);
        all.iter().for_each(|second| ask(&[*first, *second]));
    }
}

/// Known codes of either door, none, one or both, with every replacement and every value.
fn codes(try_one: &mut impl FnMut(Case)) {
    let known = [None, Some((0, 0)), Some((1, 1)), Some((0, 1))];
    for (left, right) in known.iter().flat_map(|l| known.iter().map(move |r| (l, r))) {
        for (replacements, octet_20) in (0..4).flat_map(|n| (0..4).map(move |o| (n, o << 2))) {
            let mut list = both();
            for (signal, known) in [(0, left), (1, right)] {
                let code = known.map(|(low, high)| Code { signal, low, high });
                list.codes.extend(code);
                list.signals[signal as usize].replacement = replacements >> signal & 1;
            }
            let store = heard(&[Some((OK, octet_20)), FINE, None]);
            (1..=3).for_each(|count| try_one(coaches(&list, &store, 0, count)));
        }
    }
}

/// Every number for a form, said with the list in either form.
fn forms(try_one: &mut impl FnMut(Case)) {
    let store = heard(&[FINE, Some((OK, 0x08))]);
    for (list_form, form) in [1, 2].iter().flat_map(|&l| (0..=255).map(move |f| (l, f))) {
        let mut list = both();
        list.form = list_form;
        list.signals.iter_mut().for_each(|s| s.serial = 0x40C0);
        let mut case = coaches(&list, &store, 0, 2);
        case.numbers[0] = form;
        try_one(case);
    }
}

/// All that a summary can be refused for, alone and together.
fn faults(try_one: &mut impl FnMut(Case)) {
    let doors = [[LEFT, RIGHT], [LEFT, 158], [155, RIGHT], [155, 158]];
    let trains = [&[][..], &[0], &[0; 63], &[0; 64], &[1, 1], &[8], &[5, 12]];
    for doors in doors {
        let mut list = both();
        for (s, start) in list.signals.iter_mut().zip(doors) {
            s.start = start;
        }
        for octets in spoilt(&list.octets()) {
            for len in [STORE].into_iter().chain(other_lengths()) {
                let mut store = heard(&[FINE; VEHICLES]);
                store.resize(len, 0);
                for (marks, address) in trains.iter().flat_map(|m| [0, 1, 64, 66].map(|a| (m, a))) {
                    let areas = vec![octets.clone(), store.clone(), marks.to_vec()];
                    try_one(Case::new(Call::Doors, areas, vec![1, 0, address]));
                }
            }
        }
    }
}

/// Both doors among as many signals as there can be, and each vehicle of the longest train held up alone.
fn among_most(try_one: &mut impl FnMut(Case)) {
    let mut list = most_signals();
    for start in [LEFT, LEFT + 4] {
        list.signals.retain(|s| s.kind != 0 || s.start != start);
    }
    for start in [RIGHT, LEFT] {
        list.insert_signal(field(0, start, 1, 1));
    }
    for at in 0..VEHICLES {
        let mut train = [Some((0x40, LOCKED)); VEHICLES];
        train[at] = HELD_UP[at % HELD_UP.len()];
        try_one(coaches(&list, &heard(&train), 0, VEHICLES));
    }
}
