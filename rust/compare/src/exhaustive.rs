//! Inputs that are few enough to try them all.

use std::ops::Range;

use crate::bits;
use crate::case::{Call, Case, KINDS};
use crate::changes::{self, compared};
use crate::christenings;
use crate::cycles::{self, reading};
use crate::generate::REQUESTS;
use crate::list::{Code, List, Route, Signal};
use crate::profiles::{self, by_profiles};
use crate::remedies;
use crate::store::{plant, OLD_STORE};
use crate::summaries;
use reference::{write_field, PREVIOUS, SLOT, STORE, TELEGRAM, VEHICLES};

/// The list L of the bench examples.
pub const L: [u8; 44] = [
    0x00, 0x01, 0x01, 0x42, // checks
    0x00, 0x01, 0x01, 0xA8, 0x04, 0x01, 0x01, 0x01, 0x00, 0x00, 0x13, 0x88, 0, 0, 0, 0, 0,
    0, // signals
    0x00, 0x02, 0x00, 0x00, 0x00, 0x00, 0x00, 0x06, 0x00, 0x00, 0x00, 0x0F, 0x00,
    0x0F, // codes
    0x00, 0x01, 0x00, 0x00, 0x01, 0x00, 0x00, 0x00, // routes
];

/// The key of L's signal, by which it is compared.
pub const L_KEY: u64 = 1_024 + 424;

/// Numbers far above all that a call takes, among them those that are small once cut to fewer bits.
pub fn large() -> impl Iterator<Item = u64> {
    (10..64)
        .flat_map(|power| [0, 1, 16, 64, 370].map(|n| (1 << power) + n))
        .chain([u64::MAX])
}

pub fn each(mut try_one: impl FnMut(Case)) {
    check_places(&mut try_one);
    addresses(&mut try_one);
    christenings::each(&mut try_one);
    bits::each(&mut try_one);
    summaries::each(&mut try_one);
    cycles::each(&mut try_one);
    e_telegrams(&mut try_one);
    remedies::each(&mut try_one);
    telegrams(&mut try_one);
    lists(&mut try_one);
    forms(&mut try_one);
    wide_lists(&mut try_one);
    profiles::each(&mut try_one);
    changes::each(&mut try_one);
    moves(&mut try_one);
    signals(&mut try_one);
    readings(&mut try_one);
    shows(&mut try_one);
    kinds(&mut try_one);
    refused_shows(&mut try_one);
    under_one_check(&mut try_one);
    one_of_most(&mut try_one);
    refused_relays(&mut try_one);
    arrivals(&mut try_one);
    sweeps(&mut try_one);
    widths(&mut try_one);
    ends(&mut try_one);
}

fn check_places(try_one: &mut impl FnMut(Case)) {
    for bit in (0..=1_100).chain(large()) {
        try_one(Case::new(Call::CheckPlace, vec![], vec![bit]));
    }
}

/// Trains of every length with every address: nobody marked, all of a kind, and a mixed train.
fn addresses(try_one: &mut impl FnMut(Case)) {
    let mixed = |i: usize| [18, 5, 12, 2, 4, 0, 28][i % 7] & if i == 1 { 31 } else { 30 };
    let trains: [&dyn Fn(usize) -> u8; 4] = [&|_| 0, &|_| 6, &|i| u8::from(i == 0), &mixed];
    for len in 0..=65 {
        for train in trains {
            let marks: Vec<u8> = (0..len).map(train).collect();
            for address in 0..=100 {
                try_one(Case::new(Call::Resolve, vec![marks.clone()], vec![address]));
            }
        }
    }
    for address in large() {
        try_one(Case::new(Call::Resolve, vec![vec![2; 63]], vec![address]));
    }
}

/// Every code, read and answered, and every length around the two limits.
fn e_telegrams(try_one: &mut impl FnMut(Case)) {
    let telegram = |code: u16, len: usize| {
        let mut telegram = vec![0xC7; len];
        if let Some(octets) = telegram.get_mut(6..8) {
            octets.copy_from_slice(&code.to_be_bytes());
        }
        telegram
    };
    for code in 0..=u16::MAX {
        let read = telegram(code, 9);
        try_one(Case::new(Call::ERead, vec![read.clone()], vec![]));
        let areas = vec![read, vec![0x5A; 6], vec![0xEE; 10]];
        try_one(Case::new(Call::EAnswer, areas, vec![code as u64 & 255]));
    }
    for len in 0..=1_100 {
        try_one(Case::new(Call::ERead, vec![telegram(0x4002, len)], vec![]));
    }
    for code in REQUESTS {
        for (head, out) in (0..=9).flat_map(|head| (0..=12).map(move |out| (head, out))) {
            let areas = vec![telegram(code, 9), vec![0x5A; head], vec![0xEE; out]];
            try_one(Case::new(Call::EAnswer, areas, vec![3]));
        }
    }
}

/// Every head with every length at a border.
fn telegrams(try_one: &mut impl FnMut(Case)) {
    for head in 0..=255 {
        for len in [0, 1, 2, 3, 39, 40, 41, 127, 128, 129] {
            let mut telegram = vec![0xA5; len];
            if let Some(first) = telegram.first_mut() {
                *first = head;
            }
            let areas = vec![vec![0x3C; STORE], telegram];
            try_one(Case::new(
                Call::Take,
                areas,
                vec![1 + u64::from(head) % 63, 7],
            ));
        }
    }
}

/// The list L with every octet set to every value, and every head of it.
fn lists(try_one: &mut impl FnMut(Case)) {
    for at in 0..L.len() {
        try_one(Case::new(Call::Judge, vec![L[..at].to_vec()], vec![1]));
        by_profiles(try_one, &L[..at], 1);
        for octet in 0..=255 {
            let mut list = L.to_vec();
            list[at] = octet;
            try_one(Case::new(Call::Judge, vec![list.clone()], vec![1]));
            by_profiles(try_one, &list, 1);
            try_one(Case::new(
                Call::Extends,
                vec![L.to_vec(), list.clone()],
                vec![1, 1],
            ));
            compared(try_one, [&L, &list], [1, 1]);
        }
    }
}

/// Where the serial number of L stands in form 2.
const SERIAL: Range<usize> = 22..24;

/// L in form 2, with a serial number.
pub fn wide_l(serial: u16) -> Vec<u8> {
    let (before, behind) = L.split_at(SERIAL.start);
    [before, &serial.to_be_bytes(), behind].concat()
}

/// Every number for a form, said with L in either form, in every call that takes one.
fn forms(try_one: &mut impl FnMut(Case)) {
    for form in 0..=255 {
        for list in [L.to_vec(), wide_l(0x40C0)] {
            let mut ask = |call: Call, more: Vec<Vec<u8>>, numbers: &[u64]| {
                let areas = [vec![list.clone()], more].concat();
                let values = match call.has_values() {
                    true => vec![4],
                    false => vec![],
                };
                let numbers = [&[form], numbers].concat();
                try_one(Case {
                    values,
                    ..Case::new(call, areas, numbers)
                });
            };
            let store = vec![0; STORE];
            ask(Call::Judge, vec![], &[]);
            ask(Call::JudgeProfile, vec![], &[1]);
            ask(Call::JudgeProfile, vec![], &[2]);
            ask(Call::SignalEntry, vec![], &[0]);
            ask(Call::FindSignal, vec![], &[1, 424]);
            ask(Call::Serial, vec![], &[0]);
            ask(Call::Extends, vec![L.to_vec()], &[1]);
            ask(Call::Extends, vec![wide_l(1)], &[2]);
            ask(Call::SignalChange, vec![L.to_vec()], &[1, 0]);
            ask(Call::RouteChange, vec![wide_l(1)], &[2, 0]);
            ask(Call::CodesGained, vec![wide_l(1)], &[2, L_KEY, 0]);
            ask(Call::Read, vec![store.clone()], &[0, 1, 0]);
            for call in [Call::ReadAll, Call::ReadTrain] {
                ask(call, vec![store.clone(), vec![0xEE]], &[0, 1]);
            }
            ask(Call::Show, vec![store.clone()], &[0, 1, 0, 0]);
            ask(Call::Show, vec![store.clone()], &[0, 1, 0, 1]);
            ask(Call::Marshal, vec![store, vec![0xAB]], &[0]);
            ask(Call::Compose, vec![vec![1], vec![0xEE; TELEGRAM]], &[1]);
            let step = vec![vec![], vec![0; STORE], vec![0xAB], vec![0xBB]];
            ask(Call::CheckStep, step, &[0, 0]);
            ask(Call::Doors, vec![vec![0; STORE], vec![2]], &[0, 66]);
            let heard = l_heard(1, [(1, 0x11), (2, 1), (41, 0x10), (54, 0x40)]);
            ask(Call::Relay, vec![heard, vec![0xEE; TELEGRAM]], &[0, 1]);
            let areas = vec![L.to_vec(), list.clone()];
            try_one(Case::new(Call::Extends, areas, vec![1, form]));
            compared(try_one, [&L, &list], [1, form]);
        }
    }
}

/// L in form 2 with every octet set to every value, and every head of it.
fn wide_lists(try_one: &mut impl FnMut(Case)) {
    let wide = wide_l(0);
    let mut ask = |list: &[u8]| {
        let list = list.to_vec();
        for form in [1, 2] {
            try_one(Case::new(Call::Judge, vec![list.clone()], vec![form]));
        }
        by_profiles(try_one, &list, 2);
        let areas = vec![L.to_vec(), list.clone()];
        try_one(Case::new(Call::Extends, areas, vec![1, 2]));
        compared(try_one, [&list, &L], [2, 1]);
        try_one(Case::new(Call::Serial, vec![list.clone()], vec![2, 0]));
        let areas = vec![list, vec![0xEE; L.len()]];
        try_one(Case::new(Call::ToForm1, areas, vec![]));
    };
    for at in 0..wide.len() {
        ask(&wide[..at]);
        for octet in 0..=255 {
            let mut list = wide.clone();
            list[at] = octet;
            ask(&list);
        }
    }
}

/// Moves of L into outputs of every length, of every octet of it changed, and of most signals with one serial number set.
fn moves(try_one: &mut impl FnMut(Case)) {
    let mut ask = |call, list: &[u8], len: usize| {
        let areas = vec![list.to_vec(), vec![0xEE; len]];
        try_one(Case::new(call, areas, vec![]));
    };
    let wide = L.len() + SERIAL.len();
    for len in 0..=2 * L.len() {
        ask(Call::ToForm2, &L, len);
        ask(Call::ToForm1, &wide_l(0), len);
        ask(Call::ToForm1, &wide_l(1), len);
    }
    for at in 0..L.len() {
        ask(Call::ToForm2, &L[..at], wide);
        for octet in 0..=255 {
            let mut list = L.to_vec();
            list[at] = octet;
            ask(Call::ToForm2, &list, wide);
        }
    }
    let mut list = most_signals();
    let plain = list.octets().len();
    list.form = 2;
    let wide = list.octets().len();
    for len in [plain - 1, plain, plain + 1, wide] {
        ask(Call::ToForm1, &list.octets(), len);
    }
    for at in 0..list.signals.len() {
        for serial in [1, 0x100] {
            list.signals[at].serial = serial;
            ask(Call::ToForm1, &list.octets(), plain);
        }
        list.signals[at].serial = 0;
    }
    list.form = 1;
    for len in [plain, wide - 1, wide, wide + 1] {
        ask(Call::ToForm2, &list.octets(), len);
    }
}

/// 64 checks and 256 signals of all types, of which every fifth has no check; no two entries are alike.
pub fn most_signals() -> List {
    let mut list = List {
        form: 1,
        checks: (0..32).flat_map(|i| [16 + 2 * i, 320 + 2 * i]).collect(),
        ..List::default()
    };
    list.checks.sort_unstable();
    for (kind, count, first, apart) in [(0, 56, 80, 4), (1, 100, 384, 6), (2, 100, 384, 6)] {
        list.signals.extend((0..count).map(|i| Signal {
            start: first + apart * i,
            width: apart - i % 2,
            kind,
            check: match i % 5 {
                0 => 0,
                _ => 1 + i % 32 + if kind == 0 { 0 } else { 32 },
            },
            since: 1 + i,
            limit: 1_000 * i + kind,
            replacement: i % 8,
            serial: 0,
        }));
    }
    list
}

/// As many signals, in form 2, no two with the same serial number.
fn most_serials() -> List {
    let mut list = most_signals();
    list.form = 2;
    for (number, s) in (0..).zip(&mut list.signals) {
        s.serial = 257 * number;
    }
    list
}

/// Every number, and every type with every start, of L and of lists with as many signals as there can be.
fn signals(try_one: &mut impl FnMut(Case)) {
    let lists = [
        (1, L.to_vec()),
        (1, most_signals().octets()),
        (2, most_serials().octets()),
    ];
    for (form, list) in lists {
        for signal in (0..=300).chain(large()) {
            for call in [Call::SignalEntry, Call::Serial] {
                try_one(Case::new(call, vec![list.clone()], vec![form, signal]));
            }
        }
        for kind in 0..=3 {
            for start in 0..=1_100 {
                let numbers = vec![form, kind, start];
                try_one(Case::new(Call::FindSignal, vec![list.clone()], numbers));
            }
        }
        for far in large() {
            for (kind, start) in [(far, 424), (1, far), (far, far)] {
                let numbers = vec![form, kind, start];
                try_one(Case::new(Call::FindSignal, vec![list.clone()], numbers));
            }
        }
    }
}

/// A store in which vehicle 1 was heard at 0, or not, with these octets.
pub fn l_heard(heard: u8, octets: [(usize, u8); 4]) -> Vec<u8> {
    let mut telegram = [0; TELEGRAM];
    octets
        .iter()
        .for_each(|&(octet, value)| telegram[octet - 1] = value);
    let mut store = vec![0; STORE];
    plant(&mut store, 1, heard, 0, &telegram);
    store
}

/// The list L read, its signal and all of a vehicle and of a train, shown as a code and relayed, with every head, every version, every mark and
/// every code, at the ages around its limit.
fn readings(try_one: &mut impl FnMut(Case)) {
    let mut read = |heard: u8, octets: [(usize, u8); 4], clock: u64| {
        let areas = vec![L.to_vec(), l_heard(heard, octets)];
        try_one(Case::new(Call::Read, areas.clone(), vec![1, clock, 1, 0]));
        try_one(reading(Call::ReadAll, &areas, [1, clock, 1], 1));
        try_one(reading(Call::ReadTrain, &areas, [1, clock, 2], 2));
        try_one(Case::new(
            Call::Show,
            areas.clone(),
            vec![1, clock, 1, 0, 0],
        ));
        for len in [40, TELEGRAM] {
            let areas = [areas.clone(), vec![vec![0xEE; len]]].concat();
            try_one(Case::new(Call::Relay, areas, vec![1, clock, 1]));
        }
    };
    for any in 0..=255 {
        read(any, [(1, 0x11), (2, 1), (41, 0x10), (54, 0x40)], 5_000);
        read(1, [(1, any), (2, 1), (41, 0x10), (54, 0x40)], 5_000);
        read(1, [(1, 0x11), (2, any), (41, 0x10), (54, 0x40)], 5_000);
        read(1, [(1, 0x11), (2, 1), (41, any), (54, 0x40)], 5_000);
        read(1, [(1, 0x11), (2, 1), (41, 0x20), (54, any)], 5_000);
    }
    for clock in [0, 1, 4_999, 5_000, 5_001, u64::from(u32::MAX)] {
        for heard in [1, 2] {
            read(heard, [(1, 0x11), (2, 1), (41, 0x10), (54, 0x40)], clock);
            read(heard, [(1, 0x21), (2, 1), (41, 0x10), (54, 0x40)], clock);
        }
    }
}

/// A list of one signal, R1 octets 51-52 or about so, and a store in which vehicle 1 says a value of it. Vehicle 2 was never heard: its value is
/// the replacement, which is the same.
pub fn one_shown(width: u64, value: u64) -> [Vec<u8>; 2] {
    let mut list = one_signal(1, 400, width, 0);
    let signal = &mut list.signals[0];
    signal.replacement = value & signal.top_replacement();
    let store = saying(signal, value, 1, 0);
    [list.octets(), store]
}

/// Every value of 16 bits in every scaled kind.
fn shows(try_one: &mut impl FnMut(Case)) {
    for value in 0..=0xFFFF {
        let areas = one_shown(16, value);
        for kind in 1..=4 {
            let numbers = vec![1, 0, 1, 0, kind];
            try_one(Case::new(Call::Show, areas.to_vec(), numbers));
        }
    }
}

/// Every number for a kind in every width around 16, and those of [`KINDS`] with the values around each border too; live and replaced.
fn kinds(try_one: &mut impl FnMut(Case)) {
    let mut ask = |width, value, kinds: &[u64]| {
        let areas = one_shown(width, value);
        for (kind, vehicle) in kinds.iter().flat_map(|&kind| [1, 2].map(|v| (kind, v))) {
            let numbers = vec![1, 0, vehicle, 0, kind];
            try_one(Case::new(Call::Show, areas.to_vec(), numbers));
        }
    };
    let all: Vec<u64> = (0..=255).collect();
    for width in 14..=18 {
        ask(width, 0x3039, &all);
        for border in [1, 0x4000, 0x8000, 0xC000, 0x1_0000, 0x2_0000] {
            for value in border - 1..=border + 1 {
                ask(width, value, &KINDS);
            }
        }
    }
}

/// The list as it is, and as it is refused: it ends too soon, has too many checks, a signal with since-version 0, an octet too many.
pub fn spoilt(list: &[u8]) -> [Vec<u8>; 5] {
    let checks = usize::from(list[1]);
    let mut broken = list.to_vec();
    broken[2 + 2 * checks + 2 + 5] = 0;
    [
        list.to_vec(),
        list[..list.len() - 1].to_vec(),
        [&[0, 65], &list[2..]].concat(),
        broken,
        [list, &[0]].concat(),
    ]
}

/// All that a showing can be refused for, alone and together.
fn refused_shows(try_one: &mut impl FnMut(Case)) {
    for (width, kind) in [15, 16, 17].iter().flat_map(|&w| KINDS.map(|k| (w, k))) {
        let [list, store] = one_shown(width, 1);
        for list in spoilt(&list) {
            for len in [STORE].into_iter().chain(other_lengths()) {
                let mut store = store.clone();
                store.resize(len, 0);
                let areas = [list.clone(), store];
                for (vehicle, signal) in [0, 1, 64].iter().flat_map(|&v| [0, 1].map(|s| (v, s))) {
                    let numbers = vec![1, 0, vehicle, signal, kind];
                    try_one(Case::new(Call::Show, areas.to_vec(), numbers));
                }
            }
        }
    }
}

/// Two signals of R1 and one of R2 under one check, each live, or lost in a way of its own; with replacements that are known and that are
/// not, and every mark, in every type: read as a whole, and relayed.
fn under_one_check(try_one: &mut impl FnMut(Case)) {
    let places = [(1, 424), (1, 428), (2, 424)];
    for states in 0..8 * 8 * 8 {
        let mut list = List {
            form: 1,
            checks: vec![322],
            ..List::default()
        };
        let mut telegrams = [0x11, 0x12, 0x13].map(|head| {
            let mut telegram = [0x55; TELEGRAM];
            (telegram[0], telegram[1]) = (head, 1);
            telegram
        });
        for (number, (kind, start)) in (0..).zip(places) {
            let state = states >> (3 * number);
            let (fate, known) = (state & 3, state & 4 == 0);
            list.signals.push(Signal {
                start,
                width: 4,
                kind,
                check: 1,
                since: if fate == 1 { 2 } else { 1 },
                limit: if fate == 2 { 1 } else { 0 },
                replacement: if known { 6 } else { 7 },
                serial: 0,
            });
            list.codes.push(Code {
                signal: number,
                low: 0,
                high: 6,
            });
            let value = if fate == 3 { 9 } else { 1 + number };
            write_field(&mut telegrams[kind as usize - 1], start as usize, 4, value);
        }
        for (telegram, mark) in telegrams.iter().flat_map(|t| [0, 1, 2, 3].map(|m| (t, m))) {
            let mut telegram = *telegram;
            write_field(&mut telegram, 322, 2, mark);
            let len = if telegram[0] == 0x13 { 40 } else { TELEGRAM };
            for heard in [1, 2] {
                let mut store = vec![0; STORE];
                plant(&mut store, 1, heard, 0, &telegram[..len]);
                let mut areas = vec![list.octets(), store];
                try_one(reading(Call::ReadAll, &areas, [1, 2, 1], places.len()));
                areas.push(vec![0xEE; len]);
                try_one(Case::new(Call::Relay, areas, vec![1, 2, 1]));
            }
        }
    }
}

/// As many signals as there can be, of which one says what it does not know: its check is lost or, by its replacement, it is at fault.
fn one_of_most(try_one: &mut impl FnMut(Case)) {
    let mut list = most_serials();
    for (number, s) in (0..).zip(&mut list.signals) {
        s.replacement = 0;
        list.codes.push(Code {
            signal: number,
            low: 0,
            high: s.top() - 1,
        });
    }
    for kind in [1, 2, 3] {
        let len = if kind == 3 { 40 } else { TELEGRAM };
        let mut telegram = vec![0; len];
        telegram[..2].copy_from_slice(&[0x10 | kind, 255]);
        for &check in &list.checks {
            write_field(&mut telegram, check as usize, 2, 1 + check / 2 % 2);
        }
        for number in 0..list.signals.len() {
            let s = list.signals[number];
            let mut said = telegram.clone();
            if s.carried_by(kind.into()) {
                write_field(&mut said, s.start as usize, s.width as usize, s.top());
            }
            let mut store = vec![0; STORE];
            plant(&mut store, 63, 1, 0, &said);
            for replacement in [0, s.top()] {
                list.signals[number].replacement = replacement;
                let mut areas = vec![list.octets(), store.clone()];
                let signals = list.signals.len();
                try_one(reading(Call::ReadAll, &areas, [2, 0, 63], signals));
                areas.push(vec![0xEE; len]);
                try_one(Case::new(Call::Relay, areas, vec![2, 0, 63]));
            }
            list.signals[number].replacement = 0;
        }
    }
}

/// All that relaying can be refused for, alone and together: vehicles 1 to 5 are in time, in time with R3, too old, of no R-telegram and never
/// heard.
fn refused_relays(try_one: &mut impl FnMut(Case)) {
    let mut list = L.to_vec();
    list[21] = 7;
    let mut store = vec![0; STORE];
    let mut telegram = [0; TELEGRAM];
    (telegram[1], telegram[40], telegram[53]) = (1, 0x10, 0x40);
    for (vehicle, heard, head, stamp) in [
        (1, 1, 0x11, 5_000),
        (2, 1, 0x13, 5_000),
        (3, 1, 0x11, 4_999),
        (4, 1, 0x21, 5_000),
        (5, 0, 0x11, 5_000),
    ] {
        telegram[0] = head;
        let len = if head == 0x13 { 40 } else { TELEGRAM };
        plant(&mut store, vehicle, heard, stamp, &telegram[..len]);
    }
    for list in spoilt(&list) {
        for len in [STORE].into_iter().chain(other_lengths()) {
            let mut store = store.clone();
            store.resize(len, 0);
            for vehicle in (0..=6).chain([63, 64, 257, u64::MAX]) {
                for len in [0, 1, 39, 40, 41, 127, 128, 129, 256] {
                    let areas = vec![list.clone(), store.clone(), vec![0xEE; len]];
                    try_one(Case::new(Call::Relay, areas, vec![1, 10_000, vehicle]));
                }
            }
        }
    }
}

/// The lengths of no store, that of before C-16 among them.
pub fn other_lengths() -> [usize; 8] {
    let around = [STORE - SLOT, STORE - 1, STORE + 1, STORE + SLOT];
    let [a, b, c, d] = around;
    [0, 1, SLOT, OLD_STORE, a, b, c, d]
}

/// A telegram taken and the gap read, with every heard octet, under heads of either kind, with stamps at and around the ends of the counter.
fn arrivals(try_one: &mut impl FnMut(Case)) {
    let mut arrive = |vehicle: usize, heard: u8, head: u8, [stamp, previous]: [u32; 2]| {
        let mut store = vec![0xA5; STORE];
        let slot = plant(&mut store, vehicle, heard, stamp, &[head, 1]);
        slot[PREVIOUS].copy_from_slice(&previous.to_be_bytes());
        let vehicle = vehicle as u64;
        try_one(Case::new(Call::Gap, vec![store.clone()], vec![vehicle]));
        let mut telegram = vec![0xEE; TELEGRAM];
        telegram[0] = 0x12;
        let areas = vec![store, telegram];
        try_one(Case::new(Call::Take, areas, vec![vehicle, 0x0102_0304]));
    };
    let ends = [0, 1, 5_000, 1 << 31, u32::MAX - 1, u32::MAX];
    for heard in 0..=255 {
        for head in [0x11, 0x14, 0x21] {
            arrive(1, heard, head, [0x0506_0708, 0x0506_0000]);
        }
    }
    for heard in [0, 1, 2, 3] {
        for stamps in ends.iter().flat_map(|&a| ends.map(|b| [a, b])) {
            arrive(2, heard, 0x11, stamps);
        }
        (1..=VEHICLES).for_each(|v| arrive(v, heard, 0x11, [1_000 * v as u32, v as u32]));
    }
    for vehicle in [0, 1, 63, 64].into_iter().chain(large()) {
        for len in [STORE].into_iter().chain(other_lengths()) {
            try_one(Case::new(Call::Gap, vec![vec![1; len]], vec![vehicle]));
        }
    }
}

/// Every heard octet in every slot, one slot at a time and then all, at the ages around 600,000 ms and at clocks on either side of 0.
fn sweeps(try_one: &mut impl FnMut(Case)) {
    let ages = [0, 600_000, 600_001, 1 << 31, u32::MAX];
    let mut sweep = |vehicles: &[usize], heard: u8, age: u32, now: u32| {
        let mut store = vec![0xA5; STORE];
        for &vehicle in vehicles {
            let head = 0x11 + (vehicle % 5) as u8;
            plant(
                &mut store,
                vehicle,
                heard,
                now.wrapping_sub(age),
                &[head, 1],
            );
        }
        try_one(Case::new(Call::Sweep, vec![store], vec![now.into()]));
    };
    let all: Vec<usize> = (1..=VEHICLES).collect();
    for (age, now) in ages
        .iter()
        .flat_map(|&age| [0, 600_000, 600_001, u32::MAX].map(|now| (age, now)))
    {
        (0..=255).for_each(|heard| sweep(&all, heard, age, now));
        all.iter()
            .for_each(|&vehicle| sweep(&[vehicle], 1, age, now));
    }
    for len in other_lengths() {
        try_one(Case::new(
            Call::Sweep,
            vec![vec![1; len]],
            vec![u32::MAX.into()],
        ));
    }
}

/// One signal, and a route of vehicle 1 that takes it to a bit.
pub fn one_signal(kind: u64, start: u64, width: u64, to: u64) -> List {
    let mut signal = Signal {
        start,
        width,
        kind,
        check: 0,
        since: 1,
        limit: 0,
        replacement: 0,
        serial: 0,
    };
    signal.replacement = 0xA1B2_C3D4_E5F6 & signal.top_replacement();
    List {
        form: 1,
        signals: vec![signal],
        routes: vec![Route {
            signal: 0,
            vehicle: 1,
            zero: 0,
            start: to,
        }],
        ..List::default()
    }
}

/// Every width and some that are none, from every bit of an octet, with the values at and past what the field holds.
fn widths(try_one: &mut impl FnMut(Case)) {
    for width in (0..=70).chain([128, 255]) {
        for bit in 0..8 {
            let list = one_signal(1, 424 + bit, width, (bit + 3) % 8);
            let top = list.signals[0].top();
            try_one(Case::new(Call::Judge, vec![list.octets()], vec![1]));
            for power in [top, top.wrapping_add(1), 1 << 47, 1 << 48, 1 << 49, 1 << 63] {
                for value in [power, power.wrapping_sub(1)] {
                    wide_field(try_one, &list, value);
                }
            }
        }
    }
}

/// A store with an R1 of vehicle 1, under a heard octet: a signal's value, and these octets around it.
pub fn saying(signal: &Signal, value: u64, heard: u8, around: u8) -> Vec<u8> {
    let mut telegram = [around; TELEGRAM];
    telegram[..2].copy_from_slice(&[0x11, 1]);
    let (start, width) = (signal.start as usize, signal.width as usize);
    write_field(&mut telegram, start, width, value);
    let mut store = vec![0; STORE];
    plant(&mut store, 1, heard, 0, &telegram);
    store
}

/// The value composed; and heard, then read, shown, relayed and marshalled, as it is and where it was never heard.
fn wide_field(try_one: &mut impl FnMut(Case), list: &List, value: u64) {
    let octets = list.octets();
    try_one(Case {
        values: vec![value],
        ..Case::new(
            Call::Compose,
            vec![octets.clone(), vec![], vec![0xEE; TELEGRAM]],
            vec![1, 1],
        )
    });
    let signal = &list.signals[0];
    for (heard, around) in [(0, 0xFF), (1, 0), (1, 0xFF)] {
        let areas = vec![octets.clone(), saying(signal, value, heard, around)];
        try_one(Case::new(Call::Read, areas.clone(), vec![1, 0, 1, 0]));
        try_one(reading(Call::ReadAll, &areas, [1, 0, 1], 1));
        for kind in [0, 1] {
            let numbers = vec![1, 0, 1, 0, kind];
            try_one(Case::new(Call::Show, areas.clone(), numbers));
        }
        let relayed = [areas.clone(), vec![vec![!around; TELEGRAM]]].concat();
        try_one(Case::new(Call::Relay, relayed, vec![1, 0, 1]));
        let end = (list.routes[0].start + signal.width).div_ceil(8) as usize;
        for len in [end, end.saturating_sub(1), end + 9] {
            let areas = [areas.clone(), vec![vec![!around; len]]].concat();
            try_one(Case::new(Call::Marshal, areas, vec![1, 0]));
        }
    }
}

/// Wide fields around each end of what a type may have, and routes around bit 2048.
fn ends(try_one: &mut impl FnMut(Case)) {
    for width in [1, 47, 48, 49, 63, 64, 65] {
        for by in 0..=4 {
            let around = |end: u64| end + by - 2;
            let mut lists = vec![one_signal(1, 424, width, around(2_048 - width))];
            for kind in 0..=2 {
                for end in [16, 320, 320 - width, 1_024, 1_024 - width] {
                    lists.push(one_signal(kind, around(end), width, 0));
                }
            }
            for list in lists {
                try_one(Case::new(Call::Judge, vec![list.octets()], vec![1]));
                wide_field(try_one, &list, list.signals[0].top());
            }
        }
    }
}

#[cfg(test)]
mod tests {
    use super::*;
    use crate::list::MOST;
    use reference::Form;

    #[test]
    fn the_list_with_most_signals_is_good() {
        for (list, form) in [(most_signals(), Form::One), (most_serials(), Form::Two)] {
            let counts = reference::judge(&list.octets(), form).unwrap();
            assert_eq!([counts.checks, counts.signals], [MOST[0], MOST[1]]);
        }
    }

    #[test]
    fn a_spoilt_list_is_refused_each_number() {
        let [list, _] = one_shown(16, 1);
        for list in [list, L.to_vec()] {
            let refused = spoilt(&list).map(|list| reference::judge(&list, Form::One).err());
            let numbers = refused.map(|refused| refused.map_or(0, |refusal| refusal.number));
            assert_eq!(numbers, [0, 1, 2, 3, 4]);
        }
    }
}
