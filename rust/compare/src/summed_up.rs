//! What a case of the doors shows: what is said of both sides and of how many vehicles, why each vehicle is in a set or not, who is not asked, which
//! door is missing, and which of several faults is told.

use crate::case::{Answer, Call, Case};
use crate::doors::{self, doors_of, LEFT, RIGHT};
use crate::list::{List, Signal};
use crate::reached::{each, slot_of, Row};
use reference::{Form, Reading, HEAD, HEARD, STORE, VEHICLES};

/// What is said of the left side and of the right, by their numbers.
const BOTH: [[&str; 3]; 3] = [
    [
        "not known, not known",
        "not known, locked",
        "not known, open",
    ],
    ["locked, not known", "locked, locked", "locked, open"],
    ["open, not known", "open, locked", "open, open"],
];

/// Of each side: its size, and the reason of a vehicle that is locked, that is open, and of which it is not known.
const SIZE: [&str; 2] = ["left, size", "right, size"];
const LOCKED: [&str; 2] = ["left, locked by reason", "right, locked by reason"];
const OPEN: [&str; 2] = ["left, open by reason", "right, open by reason"];
const UNKNOWN: [&str; 2] = ["left, not known by reason", "right, not known by reason"];

/// What both sides of a good case can be, beside those.
const FLAGS: [&str; 13] = [
    "open, though not known of others",
    "open, all of several",
    "the first alone of several",
    "the last alone of several",
    "in one set alone",
    "not locked, though replaced by 1",
    "not open, though replaced by 0",
    "locked, though expired",
    "0 not known as a code",
    "1 not known as a code",
    "locked, though others of the train are not",
    "locked, though one behind the train is open",
    "not asked, though it is locked",
];

/// What can be missing, and what can stand there instead.
const MISSING: [&str; 9] = [
    "35, no left door",
    "35, no right door",
    "35, neither",
    "35, the left of two bits",
    "35, the right of two bits",
    "35, both a bit late",
    "35, both a bit early",
    "35, one field over both",
    "35, of R1 or R2",
];

/// What a summary can show, beside its forms and refusals.
pub fn wanted() -> Vec<Row> {
    let flags = BOTH.as_flattened().iter().chain(&FLAGS).chain(&MISSING);
    let sizes: Vec<u64> = (0..=VEHICLES as u64).collect();
    let of_sides = [0, 1].map(|n| {
        [
            each(SIZE[n], &sizes),
            each(LOCKED[n], &[0, 1]),
            each(OPEN[n], &[0, 1]),
            // Every type of R-telegram carries a common signal: there is no reason 4.
            each(UNKNOWN[n], &[2, 3, 5, 6, 7, 8]),
        ]
        .concat()
    });
    [
        flags.map(|&what| (what, 0)).collect(),
        of_sides.concat(),
        each("vehicles", &[1, 2, 62, 63]),
        each("address", &[1, 63, 64, 65, 66, 67, 70, 92]),
        each("live by type", &[1, 2, 3]),
        each("doors under checks", &[0, 1, 2]),
        each("17, vehicles", &[0, 64, 65]),
        each("before 5, refusal", &[1, 2, 3, 4]),
        each("before 35, refusal", &[3, 4, 5]),
        each("before 17, refusal", &[1, 2, 3, 4, 5, 35]),
        each("before 18, refusal", &[1, 2, 3, 4, 5, 35]),
        each("before 19, refusal", &[1, 2, 3, 4, 5, 17, 18, 35]),
        each("before 20, refusal", &[1, 2, 3, 4, 5, 35]),
    ]
    .concat()
}

/// What one answer shows.
pub fn rows(case: &Case, answer: &Answer) -> Vec<Row> {
    if case.call != Call::Doors {
        return vec![];
    }
    let list = case.list_at(0);
    match (answer.refusal, list) {
        (0, Some(list)) => {
            let asked = asked(case);
            let both = [0, 1].map(|n| Side::new(case, &list, answer, n));
            let sides = both.iter().flat_map(|side| side.rows(case, &asked));
            let all = all_rows(case, &list, answer);
            sides.chain(all).collect()
        }
        (35, Some(list)) => [missing_rows(&list), hidden_rows(case, None, 35)].concat(),
        (refusal, list) => {
            let len = case.areas[2].len() as u64;
            let edge = refusal == 17 && matches!(len, 0 | 64 | 65);
            let edge = edge.then_some(("17, vehicles", len));
            let hidden = hidden_rows(case, list.as_ref(), refusal.into());
            edge.into_iter().chain(hidden).collect()
        }
    }
}

/// The vehicles that are asked.
fn asked(case: &Case) -> Vec<u64> {
    let set = reference::resolve(&case.areas[2], case.numbers[2]).map_or(0, |m| m.set);
    (1..=VEHICLES as u64)
        .filter(|v| set >> v & 1 == 1)
        .collect()
}

/// Those that hold.
fn met(rows: &[(&'static str, bool)]) -> Vec<Row> {
    let rows = rows.iter().filter(|(_, met)| *met);
    rows.map(|&(what, _)| (what, 0)).collect()
}

/// One side, the left or the right, as it was answered, and what each of the 63 vehicles says of it.
struct Side {
    n: usize,
    state: u64,
    set: u64,
    size: u64,
    replacement: u64,
    said: Vec<Reading>,
}

impl Side {
    fn new(case: &Case, list: &List, answer: &Answer, n: usize) -> Self {
        let door = doors_of(list)[n].unwrap_or(0);
        let (octets, form) = (&case.areas[0], Form::of(case.form_at(0)));
        let (store, now) = (&case.areas[1], case.numbers[1] as u32);
        let none = Reading {
            value: 0,
            reason: u8::MAX,
        };
        let read = |v| reference::read(octets, form, store, now, v, door as u64);
        Side {
            n,
            state: answer.gives[3 * n],
            set: answer.gives[3 * n + 1],
            size: answer.gives[3 * n + 2],
            replacement: list.signals[door].replacement,
            said: (1..=VEHICLES as u64)
                .map(|v| read(v).unwrap_or(none))
                .collect(),
        }
    }

    fn of(&self, vehicle: u64) -> Reading {
        self.said[vehicle as usize - 1]
    }

    /// Live, and this value.
    fn says(&self, vehicle: u64, value: u64) -> bool {
        self.of(vehicle).reason <= 1 && self.of(vehicle).value == value
    }

    fn rows(&self, case: &Case, asked: &[u64]) -> Vec<Row> {
        let mut rows = vec![(SIZE[self.n], self.size)];
        rows.extend(asked.iter().map(|&vehicle| {
            let Reading { value, reason } = self.of(vehicle);
            let what = match (reason, value) {
                (2.., _) => UNKNOWN,
                (_, 0) => OPEN,
                _ => LOCKED,
            };
            (what[self.n], reason.into())
        }));
        [rows, self.flags(asked), self.others(case, asked)].concat()
    }

    /// What those that are asked show together.
    fn flags(&self, asked: &[u64]) -> Vec<Row> {
        let lost = asked.iter().any(|&v| self.of(v).reason > 1);
        let several = asked.len() > 1;
        let alone = |vehicle: Option<&u64>| several && vehicle.is_some_and(|v| self.set == 1 << v);
        let all_open = asked.iter().all(|&v| self.says(v, 0));
        met(&[
            (
                "open, though not known of others",
                self.state == doors::OPEN && lost,
            ),
            ("open, all of several", several && all_open),
            ("the first alone of several", alone(asked.first())),
            ("the last alone of several", alone(asked.last())),
            (
                "not locked, though replaced by 1",
                lost && self.replacement == 1,
            ),
            (
                "not open, though replaced by 0",
                self.state == doors::NOT_KNOWN && self.replacement == 0,
            ),
        ])
    }

    /// What those that are not asked would have shown, and what the slots of those that are hold.
    fn others(&self, case: &Case, asked: &[u64]) -> Vec<Row> {
        let len = case.areas[2].len() as u64;
        let mut beside = (1..=len).filter(|v| !asked.contains(v));
        let mut behind = len + 1..=VEHICLES as u64;
        let slot = |v: u64| slot_of(&case.areas[1], v);
        let bit = |v: u64| slot(v)[HEAD + 19] >> [3, 2][self.n] & 1;
        let unknown = |value: u8| {
            asked
                .iter()
                .any(|&v| self.of(v).reason == 8 && bit(v) == value)
        };
        let (locked, kept) = (self.state == doors::LOCKED, self.state != doors::LOCKED);
        let expired = |&v: &u64| slot(v)[HEARD] == 2 && self.says(v, 1);
        met(&[
            ("locked, though expired", asked.iter().any(expired)),
            ("0 not known as a code", unknown(0)),
            ("1 not known as a code", unknown(1)),
            (
                "locked, though others of the train are not",
                locked && beside.clone().any(|v| !self.says(v, 1)),
            ),
            (
                "locked, though one behind the train is open",
                locked && behind.any(|v| self.says(v, 0)),
            ),
            (
                "not asked, though it is locked",
                kept && beside.any(|v| self.says(v, 1)),
            ),
        ])
    }
}

/// What both sides show together.
fn all_rows(case: &Case, list: &List, answer: &Answer) -> Vec<Row> {
    let [left, left_set, _, right, right_set, ..] = answer.gives;
    let mut rows = vec![
        (BOTH[left as usize][right as usize], 0),
        ("vehicles", case.areas[2].len() as u64),
        ("address", case.numbers[2]),
    ];
    if left_set != right_set {
        rows.push(("in one set alone", 0));
    }
    let checks = doors_of(list).map(|door| door.map_or(0, |at| list.signals[at].check));
    let [first, second] = checks;
    let under = match (first, second) {
        (0, _) | (_, 0) => 0,
        _ if first == second => 1,
        _ => 2,
    };
    rows.push(("doors under checks", under));
    let fine = asked(case).into_iter().filter(|v| !left_set >> v & 1 == 1);
    let heads = fine.map(|v| slot_of(&case.areas[1], v)[HEAD] & 15);
    rows.extend(heads.map(|head| ("live by type", head.into())));
    rows
}

/// Which door a good list lacks, and what it has instead.
fn missing_rows(list: &List) -> Vec<Row> {
    let [left, right] = doors_of(list).map(|door| door.is_some());
    let common = |start: u64| {
        list.signals
            .iter()
            .find(|s| s.kind == 0 && s.start == start)
    };
    let wide = |start: u64| common(start).is_some_and(|s| s.width > 1);
    let bit = |start: u64| common(start).is_some_and(|s| s.width == 1);
    let over = |s: &Signal| s.kind == 0 && s.start < LEFT && s.end() > RIGHT + 1;
    let later = |s: &Signal| s.kind != 0 && [LEFT + 304, LEFT + 320].contains(&s.start);
    let (one, none) = (left != right, !left && !right);
    let met = [
        one && right,
        one && left,
        none,
        wide(LEFT),
        wide(RIGHT),
        bit(RIGHT) && bit(RIGHT + 1),
        bit(LEFT - 1) && bit(LEFT),
        list.signals.iter().any(over),
        none && list.signals.iter().any(later),
    ];
    let met = MISSING.into_iter().zip(met).filter(|&(_, met)| met);
    met.map(|(what, _)| (what, 0)).collect()
}

fn is_listed(address: u64) -> bool {
    matches!(address, 1..=67 | 70 | 92)
}

/// The faults that are there too and are not told: 1 to 5 come first, then 35, then 17 to 20. Of a list that is refused at an entry or behind its
/// last it can be said whether it has both doors.
fn hidden_rows(case: &Case, list: Option<&List>, refusal: u64) -> Vec<Row> {
    let (address, train) = (case.numbers[2], matches!(refusal, 17..=20));
    let no_store = refusal < 5 && case.areas[1].len() != STORE;
    let no_door = matches!(refusal, 3..=5)
        && list.is_some_and(|list| doors_of(list).iter().any(Option::is_none));
    let told = reference::resolve(&case.areas[2], address).map_err(|refusal| refusal.number);
    let behind = match (train, told) {
        (false, Err(17)) => Some("before 17, refusal"),
        (false, Err(18)) => Some("before 18, refusal"),
        (false, Err(19)) => Some("before 19, refusal"),
        (false, Err(20)) => Some("before 20, refusal"),
        (true, Err(17 | 18)) if !is_listed(address) => Some("before 19, refusal"),
        _ => None,
    };
    [
        no_store.then_some("before 5, refusal"),
        no_door.then_some("before 35, refusal"),
        behind,
    ]
    .into_iter()
    .flatten()
    .map(|what| (what, refusal))
    .collect()
}
