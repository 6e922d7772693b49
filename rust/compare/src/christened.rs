//! What a case of christening records shows: which marks come out and by which places, what does not fit, what else is at fault and is not
//! told; and of a property, where its row stands.

use crate::case::{Answer, Call, Case};
use crate::reached::{each, Row};
use crate::records::{has, PLACES, RECORD};

/// Every octet of marks that a vehicle of a good train can have.
const MARKS: [u64; 15] = [0, 1, 2, 3, 4, 5, 6, 7, 12, 14, 18, 19, 22, 23, 30];

/// What these calls can show, beside their refusals.
pub fn wanted(call: Call) -> Vec<Row> {
    match call {
        Call::Property => wanted_rows(),
        Call::Christen => [wanted_built(), wanted_refused()].concat(),
        _ => vec![],
    }
}

fn flags(names: &[&'static str]) -> Vec<Row> {
    names.iter().map(|&what| (what, 0)).collect()
}

fn wanted_rows() -> Vec<Row> {
    let gateway: Vec<u64> = (22..=35).collect();
    let vehicle: Vec<u64> = (50..=54).collect();
    [
        each("set, gateway octet", &gateway),
        each("not set, gateway octet", &gateway),
        each("set, vehicle octet", &vehicle),
        each("not set, vehicle octet", &vehicle),
        each("set, bit", &[0, 1, 2, 3, 4, 5, 6, 7]),
        each("row", &[1, 132, 141, 142, 152]),
        each("no row", &[0, 133, 140, 153]),
        flags(&["no row, but one in 8 bits", "no row, but one in 16 bits"]),
    ]
    .concat()
}

fn wanted_built() -> Vec<Row> {
    [
        each("vehicles", &[1, 2, 62, 63]),
        each("mark", &MARKS),
        each("coach by row alone", &[1, 2, 9, 12, 13]),
        each("tractive by row alone", &[38, 39]),
        flags(&[
            "nobody leads",
            "the first leads",
            "the last leads",
            "several led",
            "no mark by all other bits",
            "no mark by the other bits of a pair",
            "marks behind stay",
        ]),
    ]
    .concat()
}

fn wanted_refused() -> Vec<Row> {
    [
        flags(&[
            "31, an octet too many",
            "31, an octet too few",
            "31, a pair too many",
            "31, a pair too few",
            "31, no record and a pair",
            "31, a record and no pair",
            "31, a part of a record and no pair",
            "31, and above 63",
            "31, and two lead",
            "31, and led without traction",
        ]),
        flags(&[
            "17, none",
            "17, above 256",
            "17, and two lead",
            "17, and led without traction",
        ]),
        each("17, vehicles", &[64, 65]),
        flags(&[
            "18, two lead",
            "18, the first and the last lead",
            "18, led without traction",
            "18, led and leading",
            "18, of the last alone",
        ]),
        each("18, vehicles", &[1, 2, 63]),
    ]
    .concat()
}

/// What one answer shows.
pub fn rows(case: &Case, answer: &Answer) -> Vec<Row> {
    match (case.call, answer.refusal) {
        (Call::Property, _) => property_rows(case.numbers[0], answer),
        (Call::Christen, 0) => built_rows(case),
        (Call::Christen, 31) => misfit_rows(case),
        (Call::Christen, 17) => length_rows(case),
        (Call::Christen, _) => broken_rows(case),
        _ => vec![],
    }
}

/// Those that hold.
fn met(rows: &[(&'static str, bool)]) -> Vec<Row> {
    let rows = rows.iter().filter(|(_, met)| *met);
    rows.map(|&(what, _)| (what, 0)).collect()
}

fn is_row(number: u64) -> bool {
    matches!(number, 1..=132 | 141..=152)
}

fn property_rows(row: u64, answer: &Answer) -> Vec<Row> {
    let [found, level, octet, bit, holds, ..] = answer.gives;
    if found == 0 {
        let flags = met(&[
            ("no row, but one in 8 bits", is_row(row & 0xFF)),
            ("no row, but one in 16 bits", is_row(row & 0xFFFF)),
        ]);
        return [vec![("no row", row)], flags].concat();
    }
    let what = match (holds, level) {
        (0, 0) => "not set, gateway octet",
        (0, _) => "not set, vehicle octet",
        (_, 0) => "set, gateway octet",
        _ => "set, vehicle octet",
    };
    let set = (holds != 0).then_some(("set, bit", bit));
    [("row", row), (what, octet)]
        .into_iter()
        .chain(set)
        .collect()
}

/// The vehicles of a case as far as there are records and pairs: which lead, which are led without traction, and which are led and lead.
fn train(case: &Case) -> (Vec<usize>, Vec<usize>, Vec<usize>) {
    let vehicles = case.areas[0].chunks_exact(RECORD).zip(&case.areas[1]);
    let (mut lead, mut idle, mut both) = (vec![], vec![], vec![]);
    for (at, (record, pair)) in vehicles.enumerate() {
        let tractive = has(record, PLACES[0]) || has(record, PLACES[1]);
        if pair & 1 != 0 {
            lead.push(at);
        }
        if pair & 8 != 0 && !tractive {
            idle.push(at);
        }
        if pair & 9 == 9 {
            both.push(at);
        }
    }
    (lead, idle, both)
}

fn built_rows(case: &Case) -> Vec<Row> {
    let [records, pairs, old] = &case.areas[..] else {
        return vec![];
    };
    let (lead, ..) = train(case);
    let last = pairs.len() - 1;
    let led = pairs.iter().filter(|&pair| pair & 8 != 0).count();
    let flags = met(&[
        ("nobody leads", lead.is_empty()),
        ("the first leads", lead == [0]),
        ("the last leads", lead == [last] && last > 0),
        ("several led", led > 1),
        ("marks behind stay", old[last + 1..].iter().any(|&o| o != 0)),
    ]);
    let vehicles = records.chunks_exact(RECORD).zip(pairs);
    let vehicles = vehicles.flat_map(|(record, &pair)| vehicle_rows(record, pair));
    [("vehicles", pairs.len() as u64)]
        .into_iter()
        .chain(flags)
        .chain(vehicles)
        .collect()
}

/// The marks of a vehicle, and the place that says so, where there is no other.
fn vehicle_rows(record: &[u8], pair: u8) -> Vec<Row> {
    let set = |places: &[(u64, usize, u8)]| {
        let set = places.iter().filter(|&&place| has(record, place));
        set.map(|&(row, ..)| row).collect::<Vec<u64>>()
    };
    let (tractive, coach) = (set(&PLACES[..2]), set(&PLACES[2..]));
    let marks = [
        (1, pair & 1 != 0),
        (2, !coach.is_empty()),
        (4, !tractive.is_empty()),
        (8, pair & 8 != 0),
        (16, coach.contains(&13)),
    ];
    let mark = marks.map(|(worth, is)| worth * u64::from(is)).iter().sum();
    let ones: u32 = record.iter().map(|octet| octet.count_ones()).sum();
    let all_others = ones == 8 * RECORD as u32 - PLACES.len() as u32;
    let flags = met(&[
        ("no mark by all other bits", mark == 0 && all_others),
        ("no mark by the other bits of a pair", pair == 0xF6),
    ]);
    let mut rows = [vec![("mark", mark)], flags].concat();
    if let [row] = coach[..] {
        rows.push(("coach by row alone", row));
    }
    if let [row] = tractive[..] {
        rows.push(("tractive by row alone", row));
    }
    rows
}

fn misfit_rows(case: &Case) -> Vec<Row> {
    let [records, pairs] = [0, 1].map(|area| case.areas[area].len());
    let (whole, part) = (records / RECORD, records % RECORD);
    let (lead, idle, _) = train(case);
    met(&[
        ("31, an octet too many", records == RECORD * pairs + 1),
        ("31, an octet too few", records + 1 == RECORD * pairs),
        ("31, a pair too many", part == 0 && pairs == whole + 1),
        ("31, a pair too few", part == 0 && pairs + 1 == whole),
        ("31, no record and a pair", records == 0 && pairs == 1),
        ("31, a record and no pair", records == RECORD && pairs == 0),
        (
            "31, a part of a record and no pair",
            whole == 0 && pairs == 0,
        ),
        ("31, and above 63", whole > 63 && pairs > 63),
        ("31, and two lead", lead.len() > 1),
        ("31, and led without traction", !idle.is_empty()),
    ])
}

fn length_rows(case: &Case) -> Vec<Row> {
    let len = case.areas[1].len() as u64;
    let (lead, idle, _) = train(case);
    let flags = met(&[
        ("17, none", len == 0),
        ("17, above 256", len > 256),
        ("17, and two lead", lead.len() > 1),
        ("17, and led without traction", !idle.is_empty()),
    ]);
    let edge = matches!(len, 64 | 65).then_some(("17, vehicles", len));
    edge.into_iter().chain(flags).collect()
}

fn broken_rows(case: &Case) -> Vec<Row> {
    let len = case.areas[1].len();
    let (lead, idle, both) = train(case);
    let wrong = [&idle[..], &both[..]].concat();
    let two = lead.len() > 1;
    let flags = met(&[
        ("18, two lead", lead.len() == 2 && wrong.is_empty()),
        ("18, the first and the last lead", lead == [0, len - 1]),
        ("18, led without traction", !two && !idle.is_empty()),
        ("18, led and leading", !two && idle.is_empty()),
        (
            "18, of the last alone",
            !two && len > 1 && wrong == [len - 1],
        ),
    ]);
    let edge = matches!(len, 1 | 2 | 63).then_some(("18, vehicles", len as u64));
    edge.into_iter().chain(flags).collect()
}
