//! What a case of reading all signals shows: why the entries are what they are, of how many signals and vehicles, how the areas do not fit, and which
//! of several faults is told.

use std::collections::BTreeSet;

use crate::case::{Answer, Call, Case};
use crate::list::List;
use crate::reached::{each, is_r_head, slot_of, Row};
use reference::{Form, HEAD, HEARD, STORE, VEHICLES};

/// What the entries of a good case can be together.
const FLAGS: [&str; 6] = [
    "all live",
    "none live",
    "some live",
    "known, codes before it",
    "not known, codes before it",
    "no codes, between such with codes",
];

/// What those of a train can be.
const OF_TRAINS: [&str; 5] = [
    "the first alone live",
    "the last alone live",
    "none of one live, between such that are",
    "one signal, other reasons",
    "heard behind the last",
];

/// How the areas of a good list and vehicle do not fit.
const MISFITS: [&str; 8] = [
    "13, values too few",
    "13, values too many",
    "13, reasons too few",
    "13, reasons too many",
    "13, both too few",
    "13, both too many",
    "13, values too few and reasons too many",
    "13, values too many and reasons too few",
];

const FOR_OTHERS: [&str; 3] = [
    "13, as for one vehicle",
    "13, as for one vehicle less",
    "13, as for one vehicle more",
];

/// What each call can show, beside its forms and refusals.
pub fn wanted(call: Call) -> Vec<Row> {
    let of_call = match call {
        Call::ReadAll => [
            each("vehicle", &[1, 2, 3, 63]),
            each("6, vehicle", &[0, 64]),
            vec![],
        ],
        _ => [
            each("last", &[1, 2, 62, 63]),
            each("6, last", &[0, 64]),
            OF_TRAINS.iter().chain(&FOR_OTHERS).map(flag).collect(),
        ],
    };
    [
        FLAGS.iter().chain(&MISFITS).map(flag).collect(),
        of_call.concat(),
        each("reason", &[0, 1, 2, 3, 4, 5, 6, 7, 8]),
        each("expired, reason", &[0, 1, 2, 3, 4, 5, 6, 7, 8]),
        // Reason 8 is for widths up to 16.
        each("above 48 bits, reason", &[0, 1, 2, 3, 4, 5, 6, 7]),
        each("signals", &[0, 1, 256]),
        vec![
            ("13, no signal", 0),
            ("13, nothing lent", 0),
            ("6, one in 8 bits", 0),
            ("6, one in 32 bits", 0),
        ],
        each("before 5, refusal", &[1, 2, 3, 4]),
        each("before 6, refusal", &[1, 2, 3, 4, 5]),
        each("before 13, refusal", &[1, 2, 3, 4, 5, 6]),
    ]
    .concat()
}

fn flag(what: &&'static str) -> Row {
    (what, 0)
}

/// What one answer shows.
pub fn rows(case: &Case, answer: &Answer) -> Vec<Row> {
    if !case.call.writes_values() {
        return vec![];
    }
    match (answer.refusal, case.list_at(0)) {
        (0, Some(list)) => {
            let read = Read::new(case, &list);
            [read.entries(), read.together(), read.train()].concat()
        }
        (13, Some(list)) => misfit_rows(case, list.signals.len()),
        (6, _) => [nobody_rows(case), hidden_rows(case, 6)].concat(),
        (refusal, _) => hidden_rows(case, refusal.into()),
    }
}

/// Those that hold.
fn met<const N: usize>(names: [&'static str; N], met: [bool; N]) -> Vec<Row> {
    let met = names.into_iter().zip(met).filter(|&(_, met)| met);
    met.map(|(what, _)| (what, 0)).collect()
}

/// A good case: of each vehicle that is read the reasons, in the order of the signals.
struct Read<'a> {
    case: &'a Case,
    list: &'a List,
    reasons: Vec<(u64, Vec<u8>)>,
}

fn is_live(reason: &u8) -> bool {
    *reason <= 1
}

impl<'a> Read<'a> {
    fn new(case: &'a Case, list: &'a List) -> Self {
        let (octets, store, form) = (&case.areas[0], &case.areas[1], Form::of(list.form));
        let (now, of) = (case.numbers[1] as u32, case.numbers[2]);
        let first = if case.call == Call::ReadAll { of } else { 1 };
        let signals = list.signals.len();
        let reasons = |vehicle| {
            let (mut values, mut reasons) = (vec![0; signals], vec![0; signals]);
            let read =
                reference::read_all(octets, form, store, now, vehicle, &mut values, &mut reasons);
            read.map_or((vehicle, vec![]), |()| (vehicle, reasons))
        };
        Read {
            case,
            list,
            reasons: (first..=of).map(reasons).collect(),
        }
    }

    /// Of how many they are, and each for itself.
    fn entries(&self) -> Vec<Row> {
        let of = match self.case.call {
            Call::ReadAll => "vehicle",
            _ => "last",
        };
        let mut rows = BTreeSet::from([
            (of, self.case.numbers[2]),
            ("signals", self.list.signals.len() as u64),
        ]);
        for (vehicle, reasons) in &self.reasons {
            let expired = slot_of(&self.case.areas[1], *vehicle)[HEARD] == 2;
            for (s, &reason) in self.list.signals.iter().zip(reasons) {
                rows.insert(("reason", reason.into()));
                if expired {
                    rows.insert(("expired, reason", reason.into()));
                }
                if s.width > 48 {
                    rows.insert(("above 48 bits, reason", reason.into()));
                }
            }
        }
        rows.into_iter().collect()
    }

    /// What all show together, and what is read of signals with known codes behind others with such.
    fn together(&self) -> Vec<Row> {
        let all = || self.reasons.iter().flat_map(|(_, reasons)| reasons);
        let (live, none) = (all().any(is_live), all().next().is_none());
        let lost = all().any(|reason| !is_live(reason));
        let coded: Vec<usize> = self.list.codes.iter().map(|c| c.signal as usize).collect();
        let later = |of: fn(&u8) -> bool| {
            let mut behind = coded.iter().filter(|&&n| n > coded[0]);
            behind.any(|&n| self.reasons.iter().any(|(_, reasons)| of(&reasons[n])))
        };
        let first = coded.first().copied().unwrap_or(0);
        let between = first..coded.last().copied().unwrap_or(0);
        let mut without = between.filter(|n| !coded.contains(n));
        let is_live_at = |n: usize| self.reasons.iter().any(|(_, of)| is_live(&of[n]));
        met(
            FLAGS,
            [
                !none && !lost,
                !none && !live,
                live && lost,
                later(is_live),
                later(|&reason| reason == 8),
                without.any(is_live_at),
            ],
        )
    }

    /// What several vehicles show, and one that is not asked.
    fn train(&self) -> Vec<Row> {
        if self.case.call != Call::ReadTrain {
            return vec![];
        }
        let lives = self.reasons.iter().map(|(_, of)| of.iter().any(is_live));
        let lives: Vec<bool> = lives.collect();
        let count = lives.iter().filter(|&&live| live).count();
        let alone = |live: Option<&bool>| lives.len() > 1 && count == 1 && live == Some(&true);
        let first = lives.iter().position(|&live| live).unwrap_or(0);
        let end = lives.iter().rposition(|&live| live).unwrap_or(0);
        let apart = |n: usize| {
            let mut of = self.reasons.iter().map(|(_, reasons)| reasons[n]);
            let first = of.next();
            of.any(|reason| Some(reason) != first)
        };
        let mut behind = self.case.numbers[2] + 1..=VEHICLES as u64;
        let heard = |vehicle| {
            let slot = slot_of(&self.case.areas[1], vehicle);
            slot[HEARD] == 1 && is_r_head(slot[HEAD])
        };
        met(
            OF_TRAINS,
            [
                alone(lives.first()),
                alone(lives.last()),
                lives[first..end].contains(&false),
                (0..self.list.signals.len()).any(apart),
                behind.any(heard),
            ],
        )
    }
}

/// The lengths of both areas beside what they must be, and whom they would fit.
fn misfit_rows(case: &Case, signals: usize) -> Vec<Row> {
    let vehicles = match case.call {
        Call::ReadAll => 1,
        _ => case.numbers[2] as usize,
    };
    let fits = signals * vehicles;
    let (v, r) = (case.values.len(), case.areas[2].len());
    let mut rows = met(
        MISFITS,
        [
            v < fits && r == fits,
            v > fits && r == fits,
            v == fits && r < fits,
            v == fits && r > fits,
            v < fits && r < fits,
            v > fits && r > fits,
            v < fits && r > fits,
            v > fits && r < fits,
        ],
    );
    rows.extend(met(
        ["13, no signal", "13, nothing lent"],
        [signals == 0, v == 0 && r == 0],
    ));
    if case.call == Call::ReadTrain && signals > 0 && v == r {
        let others = [1, vehicles - 1, vehicles + 1];
        rows.extend(met(FOR_OTHERS, others.map(|others| v == others * signals)));
    }
    rows
}

/// Vehicles that are none.
fn nobody_rows(case: &Case) -> Vec<Row> {
    let of = case.numbers[2];
    let is_one = |vehicle: u64| (1..=VEHICLES as u64).contains(&vehicle);
    let name = match case.call {
        Call::ReadAll => "6, vehicle",
        _ => "6, last",
    };
    let edge = matches!(of, 0 | 64).then_some((name, of));
    let cut = [
        is_one(of & 0xFF).then_some(("6, one in 8 bits", 0)),
        is_one(of & 0xFFFF_FFFF).then_some(("6, one in 32 bits", 0)),
    ];
    edge.into_iter().chain(cut.into_iter().flatten()).collect()
}

/// The faults that are there too and are not told, since the lower number is. Values and reasons that are not as many as each other fit no list.
fn hidden_rows(case: &Case, refusal: u64) -> Vec<Row> {
    let nobody = !(1..=VEHICLES as u64).contains(&case.numbers[2]);
    let apart = case.values.len() != case.areas[2].len();
    let faults = [
        (5, "before 5, refusal", case.areas[1].len() != STORE),
        (6, "before 6, refusal", nobody),
        (13, "before 13, refusal", apart),
    ];
    let hidden = faults
        .into_iter()
        .filter(|&(number, _, there)| there && refusal < number);
    hidden.map(|(_, what, _)| (what, refusal)).collect()
}
