//! The lists, the store, the telegrams, the records and the texts that are measured.
//!
//! The bits of a telegram are laid out in units of 14: a check, then signals of 2, 3, 3 and 4 bits that name it. The longest list has 64
//! units, 21 of them in the octets that every type carries and 43 in those of R1, so that an R1 carries all its 256 signals.

use reference::{Form, SERIAL_SIZE};

/// The stamp of every slot, and the clock at which signals are read: within every time limit.
pub const STAMP: u32 = 1_000;
pub const NOW: u32 = 4_000;

/// The list of `data/`, and an R1 of its scene.
pub const COACH: &[u8] = include_bytes!("../../../data/coach.list");
pub const COACH_R1: &[u8] = include_bytes!("../../../data/scene/1-R1.telegram");

pub const MOST_UNITS: usize = 64;
const COMMON_UNITS: usize = 21;
pub const WIDTHS: [u8; 4] = [2, 3, 3, 4];

pub fn put16(list: &mut Vec<u8>, number: usize) {
    list.extend((number as u16).to_be_bytes());
}

/// The type of a unit and where it starts, in a list of so many units.
pub fn unit(number: usize, units: usize) -> (u8, usize) {
    let common = COMMON_UNITS * units / MOST_UNITS;
    match number.checked_sub(common) {
        None => (0, 16 + 14 * number),
        Some(later) => (1, 320 + 14 * later),
    }
}

/// A list of so many units: as many checks, four signals a unit, two code entries and two routes a signal. Every time limit is `limit`,
/// which one list that extends another may change.
pub fn list(units: usize, limit: u32) -> Vec<u8> {
    let mut list = Vec::new();
    put16(&mut list, units);
    for number in 0..units {
        put16(&mut list, unit(number, units).1);
    }
    put16(&mut list, 4 * units);
    for number in 0..4 * units {
        signal(&mut list, units, number, limit);
    }
    put16(&mut list, 8 * units);
    for number in 0..4 * units {
        codes(&mut list, number, WIDTHS[number % 4]);
    }
    put16(&mut list, 8 * units);
    routes(&mut list, units);
    list
}

/// The longest list, of which every second signal is another than in [`list`]: by its limit, and in that it knows code 1 and neither 0 nor 2.
/// Every second route is of another vehicle.
pub fn half_changed() -> Vec<u8> {
    let mut list = list(MOST_UNITS, 5_000);
    let signals = 2 + 2 * MOST_UNITS + 2;
    let codes = signals + 16 * 4 * MOST_UNITS + 2;
    let routes = codes + 6 * 8 * MOST_UNITS + 2;
    for number in (0..4 * MOST_UNITS).step_by(2) {
        list[signals + 16 * number + 9] += 1;
        // Two entries of a signal: low and high of the first, low of the second.
        let entries = &mut list[codes + 12 * number..];
        (entries[3], entries[5], entries[9]) = (1, 1, 3);
    }
    for number in (0..8 * MOST_UNITS).step_by(2) {
        let vehicle = &mut list[routes + 6 * number + 2];
        *vehicle = 1 + *vehicle % 63;
    }
    list
}

/// As [`list`], in form 2 and with no serial number.
pub fn list_in_form_2(units: usize, limit: u32) -> Vec<u8> {
    in_form_2(&list(units, limit), 4 * units)
}

/// A list of so many signals, in form 2.
pub fn in_form_2(list: &[u8], signals: usize) -> Vec<u8> {
    let mut out = vec![0; list.len() + signals * SERIAL_SIZE];
    reference::to_form_2(list, &mut out).expect("the list of the bench is moved");
    out
}

fn signal(list: &mut Vec<u8>, units: usize, number: usize, limit: u32) {
    let (kind, start) = unit(number / 4, units);
    let before: u8 = WIDTHS[..number % 4].iter().sum();
    put16(list, start + 2 + usize::from(before));
    let (check, since) = (1 + number / 4, 1 + number % 3);
    list.extend([WIDTHS[number % 4], kind, check as u8, since as u8]);
    list.extend(limit.to_be_bytes());
    list.extend([0, 0, 0, 0, 0, (number % 4) as u8]);
}

/// Code 1 alone is not known.
fn codes(list: &mut Vec<u8>, number: usize, width: u8) {
    let past = 1 << width;
    for (low, high) in [(0, 0), (2, past - 1)] {
        put16(list, number);
        put16(list, low);
        put16(list, high);
    }
}

/// Every signal twice, not in the order of the signals, with a bit between two fields; all vehicles.
fn routes(list: &mut Vec<u8>, units: usize) {
    let mut start = 0;
    for number in 0..8 * units {
        let signal = (37 * number + 11) % (4 * units);
        put16(list, signal);
        list.extend([1 + (number % 63) as u8, 0]);
        put16(list, start);
        start += usize::from(WIDTHS[signal % 4]) + 1;
    }
}

/// One check, so many signals of 16 bits under it, side by side, with these code entries (signal, low, high), and one route.
pub fn coded(signals: usize, entries: &[(usize, usize, usize)]) -> Vec<u8> {
    let mut list = Vec::new();
    put16(&mut list, 1);
    put16(&mut list, 322);
    put16(&mut list, signals);
    for number in 0..signals {
        put16(&mut list, 400 + 16 * number);
        list.extend([16, 1, 1, 1, 0, 0, 0x13, 0x88, 0, 0, 0, 0, 0, 0]);
    }
    put16(&mut list, entries.len());
    for &(signal, low, high) in entries {
        put16(&mut list, signal);
        put16(&mut list, low);
        put16(&mut list, high);
    }
    put16(&mut list, 1);
    list.extend([0, 0, 1, 0, 0, 0]);
    list
}

/// So many code entries of signal 0, 51 codes each and 49 between two.
pub fn ranges(entries: usize) -> Vec<(usize, usize, usize)> {
    let range = |number| (0, 100 * number, 100 * number + 50);
    (0..entries).map(range).collect()
}

/// Eight signals of 64 bits, each from another bit of an octet, and each routed three times, with a bit between two fields.
pub fn wide() -> Vec<u8> {
    let mut list = Vec::new();
    put16(&mut list, 0);
    put16(&mut list, 8);
    for number in 0..8 {
        put16(&mut list, 320 + 65 * number);
        list.extend([64, 1, 0, 1, 0, 0, 0x13, 0x88, 0, 0, 0, 0, 0, 0]);
    }
    put16(&mut list, 0);
    put16(&mut list, 24);
    for number in 0..24 {
        put16(&mut list, (5 * number + 3) % 8);
        list.extend([1 + number as u8, 0]);
        put16(&mut list, 65 * number);
    }
    list
}

/// A list in the profile of driving trailers, with as much of each section as fits in it: 64 signals of two bits, of which two lie in each of the
/// 17 rows of the R1 grouping and all others are common, two code entries and a route each.
pub fn narrow() -> Vec<u8> {
    let first_of = |place: usize| {
        let under = |bit: &usize| reference::check_place(*bit as u64) == Ok(place as u64);
        (368..584).find(under).expect("every row has a bit")
    };
    let places: Vec<usize> = (320..=352).step_by(2).collect();
    let common = (0..30).map(|number| (0, 18 + 2 * number, 1));
    let rows = (2..).zip(&places).flat_map(|(check, &place)| {
        let first = first_of(place);
        [(1, first, check), (1, first + 2, check)]
    });
    let mut list = Vec::new();
    put16(&mut list, 1 + places.len());
    put16(&mut list, 16);
    places.iter().for_each(|&place| put16(&mut list, place));
    put16(&mut list, 64);
    for (kind, start, check) in common.chain(rows) {
        put16(&mut list, start);
        list.extend([2, kind, check, 1, 0, 0, 0x13, 0x88, 0, 0, 0, 0, 0, 3]);
    }
    put16(&mut list, 2 * 64);
    (0..64).for_each(|number| codes(&mut list, number, 2));
    put16(&mut list, 64);
    for number in 0..64 {
        put16(&mut list, number);
        list.extend([1 + (number % 63) as u8, 0]);
        put16(&mut list, 2 * number);
    }
    list
}

/// One value for each signal of [`wide`], of all 64 bits.
pub fn wide_values() -> Vec<u64> {
    (1..=8).map(|number| u64::MAX / number).collect()
}

/// One value for each signal of [`list`], none of them code 1.
pub fn values(units: usize) -> Vec<u64> {
    (0..4 * units as u64).map(|number| 2 + number % 2).collect()
}

/// One mark for each check: ok, and every fourth forced.
pub fn marks(units: usize) -> Vec<u8> {
    (0..units)
        .map(|number| 1 + u8::from(number % 4 == 3))
        .collect()
}

/// An R1 under the longest list.
pub fn telegram() -> Vec<u8> {
    let mut out = vec![0; 128];
    let list = list(MOST_UNITS, 5_000);
    let composed = reference::compose(
        &list,
        Form::One,
        1,
        &values(MOST_UNITS),
        &marks(MOST_UNITS),
        &mut out,
    );
    composed.expect("the telegram of the bench is composed");
    out
}

/// All 63 vehicles heard, each with this telegram.
pub fn store(telegram: &[u8]) -> Vec<u8> {
    let mut store = vec![0; reference::STORE];
    for vehicle in 1..=63 {
        reference::take(&mut store, vehicle, STAMP, telegram)
            .expect("the telegram of the bench is taken");
    }
    store
}

/// 63 vehicles: the first leads, the last is led, between them coaches, every fourth a sleeping car.
pub fn train() -> Vec<u8> {
    let mut marks: Vec<u8> = (0..63)
        .map(|number| if number % 4 == 0 { 18 } else { 2 })
        .collect();
    marks[0] = 5;
    marks[62] = 12;
    marks
}

/// The christening record of a vehicle of these marks, and its pair: of the bits that say nothing of them, every third is set.
pub fn record(mark: u8) -> ([u8; 56], u8) {
    let mut record: [u8; 56] = std::array::from_fn(|at| [0x92, 0x49, 0x24][at % 3]);
    record[23] &= 0x3F;
    record[49] &= 0x3F;
    record[50] &= 0x67;
    for (of, octet, weight) in [(4, 23, 0x40), (2, 49, 0x80), (16, 50, 0x08)] {
        if mark & of != 0 {
            record[octet] |= weight;
        }
    }
    (record, mark & 9)
}

/// The records and the pairs of [`train`].
pub fn records() -> (Vec<u8>, Vec<u8>) {
    let (records, pairs): (Vec<[u8; 56]>, Vec<u8>) = train().into_iter().map(record).unzip();
    (records.concat(), pairs)
}

/// A step of a recording.
#[derive(Clone, Copy)]
pub struct Step<'a> {
    pub store: &'a [u8],
    pub now: u32,
    pub before: &'a [u8],
    pub after: &'a [u8],
}

/// What a writer of remedy texts is handed.
pub struct Handed {
    pub head: [u8; 6],
    pub carried: [u8; 12],
    pub language: u16,
    pub ordered: u8,
    pub keys: Vec<u8>,
    pub lengths: Vec<u16>,
    pub texts: Vec<u8>,
}

/// As many texts as there can be, each as long as it can be, under keys that are not in order.
pub fn remedies() -> Handed {
    Handed {
        head: [1, 2, 3, 4, 5, 6],
        carried: [7; 12],
        language: 0x0407,
        ordered: 1,
        keys: vec![8, 1, 7, 2, 6, 3, 5, 4],
        lengths: vec![254; 8],
        texts: (0..8 * 254).map(|octet| (37 * octet) as u8).collect(),
    }
}
