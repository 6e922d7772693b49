//! What a case of checking a step shows: right or wrong, where the first wrong bit lies and what else is wrong, how a step does not follow on, and
//! which of several faults is told.

use std::ops::Range;

use crate::case::{Answer, Call, Case};
use crate::list::{List, MOST};
use crate::reached::{each, Row};
use crate::steps::{fields, needed, ROUTED};
use reference::{Finding, Form, STORE};

/// What a step that is right can be.
const RIGHT: [&str; 6] = [
    "right, no route",
    "right, no data",
    "right, though the last one has other data",
    "right, data that routes cannot reach",
    "right, as it was before",
    "right, not as it was before",
];

/// Where a wrong bit of a route can lie.
const INSIDE: [&str; 14] = [
    "the first bit of its route",
    "the last bit of its route",
    "neither the first bit nor the last",
    "a route of one bit",
    "next to the route before",
    "next to the route behind",
    "in the first octet of nine",
    "in the ninth octet of its route",
    "in the first of several routes",
    "in the last of several routes",
    "in the last of 512 routes",
    "in a route, in octet 255",
    "the last bit that a route may have",
    "in a route, the last bit of the data",
];

/// Where a wrong bit of none can lie.
const OUTSIDE: [&str; 13] = [
    "before the first route",
    "between two routes",
    "in a gap of one bit",
    "the first bit of a longer gap",
    "the last bit of a longer gap",
    "behind the last route, in its octet",
    "behind the octet of the last route",
    "in no route, in octet 255",
    "in no route, in octet 256",
    "behind octet 256",
    "in no route, the last bit of the data",
    "behind octet 256, the last bit of the data",
    "wrong, and there is no route",
];

/// What else can be wrong behind the first wrong bit.
const BEHIND: [&str; 7] = [
    "nothing else is wrong",
    "in a route, another bit of it too",
    "in a route, a bit of another too",
    "in a route, a bit of none too",
    "in no route, a bit of a route too",
    "in no route, another bit of none too",
    "in a route that was left as it was before",
];

/// What the data of the last step can be where a step does not follow on.
const BROKEN: [&str; 7] = [
    "37, no data",
    "37, an octet less",
    "37, an octet more",
    "37, one bit is another",
    "37, the last bit is another",
    "37, the data after instead",
    "37, behind octet 256",
];

/// How the data before can be too short, and how those after can have another length.
const SHORT: [&str; 4] = [
    "12, an octet less",
    "12, no data",
    "12, though the data after are long enough",
    "12, both too short",
];
const OTHER: [&str; 4] = [
    "36, an octet less",
    "36, an octet more",
    "36, no data",
    "36, the data after too short for the routes",
];

/// How many steps there can be before one that is held to the last, and before one too many.
const LATER: [u64; 3] = [1, 998, 999];
const TOO_MANY: [u64; 3] = [1_000, 1_001, u64::MAX];

/// What checking a step can show, beside its forms and refusals.
pub fn wanted() -> Vec<Row> {
    let flags = [
        &RIGHT[..],
        &INSIDE,
        &OUTSIDE,
        &BEHIND,
        &BROKEN,
        &SHORT,
        &OTHER,
    ]
    .concat();
    let widths: Vec<u64> = (1..=64).collect();
    let (steps, bits) = ([&[0], &LATER[..]].concat(), [0, 1, 2, 3, 4, 5, 6, 7]);
    [
        flags.into_iter().map(|what| (what, 0)).collect(),
        each("right, step", &steps),
        each("wrong, step", &steps),
        each("37, step", &LATER),
        each("38, steps", &TOO_MANY),
        each("38, few if cut to bits", &[16, 32]),
        each("octets of data", &[0, 1, 255, 256, 257]),
        each("in a route, reason", &[0, 1, 2, 3, 4, 5, 6, 7, 8]),
        each("in a route of width", &widths),
        each("in a route, bit", &bits),
        each("in no route, bit", &bits),
        each("before the list's, refusal", &[38]),
        each("before 5, refusal", &[1, 2, 3, 4, 38]),
        each("before 12, refusal", &[3, 4, 5, 38]),
        each("before 36, refusal", &[1, 2, 3, 4, 5, 12, 38]),
        each("before 37, refusal", &[1, 2, 3, 4, 5, 12, 36, 38]),
        each("before a wrong bit, refusal", &[37, 38]),
    ]
    .concat()
}

/// What one answer shows.
pub fn rows(case: &Case, answer: &Answer) -> Vec<Row> {
    if case.call != Call::CheckStep {
        return vec![];
    }
    let step = Step::new(case);
    match (answer.refusal, &step.list) {
        (0, Some(list)) => {
            let octets = ("octets of data", step.after.len() as u64);
            let rows = match answer.gives[0] {
                0 => Wrong::new(&step, list, answer).rows(),
                _ => step.right_rows(list),
            };
            [rows, vec![octets]].concat()
        }
        (refusal, list) => {
            let needed = list.as_ref().map(needed);
            let own = match (refusal, needed) {
                (12, Some(needed)) => step.short_rows(needed),
                (36, Some(needed)) => step.other_rows(needed),
                (37, _) => step.broken_rows(),
                (38, _) => step.late_rows(),
                _ => vec![],
            };
            [own, step.hidden_rows(needed, refusal.into())].concat()
        }
    }
}

/// Those that hold.
fn met<const N: usize>(names: [&'static str; N], met: [bool; N]) -> Vec<Row> {
    let met = names.into_iter().zip(met).filter(|&(_, met)| met);
    met.map(|(what, _)| (what, 0)).collect()
}

/// What was lent.
struct Step<'a> {
    case: &'a Case,
    list: Option<List>,
    steps: u64,
    last: &'a [u8],
    before: &'a [u8],
    after: &'a [u8],
}

impl<'a> Step<'a> {
    fn new(case: &'a Case) -> Self {
        Step {
            case,
            list: case.list_at(0),
            steps: case.numbers[1],
            last: &case.areas[1],
            before: &case.areas[3],
            after: &case.areas[4],
        }
    }

    fn form(&self) -> Form {
        Form::of(self.case.form_at(0))
    }

    fn right_rows(&self, list: &List) -> Vec<Row> {
        let (changed, routed) = (self.before != self.after, !list.routes.is_empty());
        let of = [
            !routed,
            self.after.is_empty(),
            self.steps == 0 && self.last != self.before,
            8 * self.after.len() as u64 > ROUTED,
            !changed && routed,
            changed,
        ];
        [met(RIGHT, of), vec![("right, step", self.steps)]].concat()
    }

    fn short_rows(&self, needed: usize) -> Vec<Row> {
        let (before, after) = (self.before.len(), self.after.len());
        let of = [
            before + 1 == needed,
            before == 0,
            after >= needed,
            after == before,
        ];
        met(SHORT, of)
    }

    fn other_rows(&self, needed: usize) -> Vec<Row> {
        let (before, after) = (self.before.len(), self.after.len());
        let of = [
            after + 1 == before,
            after == before + 1,
            after == 0,
            after < needed,
        ];
        met(OTHER, of)
    }

    fn broken_rows(&self) -> Vec<Row> {
        let (last, before) = (self.last, self.before);
        let wrong: Vec<u64> = wrong_bits(last, before);
        let (same, bits) = (last.len() == before.len(), 8 * before.len() as u64);
        let of = [
            last.is_empty(),
            last.len() + 1 == before.len() && before.starts_with(last),
            last.len() == before.len() + 1 && last.starts_with(before),
            same && wrong.len() == 1,
            same && wrong == [bits.wrapping_sub(1)],
            last == self.after,
            same && wrong.first().is_some_and(|&first| first >= ROUTED),
        ];
        let later = LATER
            .contains(&self.steps)
            .then_some(("37, step", self.steps));
        met(BROKEN, of).into_iter().chain(later).collect()
    }

    fn late_rows(&self) -> Vec<Row> {
        let few = |bits: u64| self.steps >> bits > 0 && self.steps % (1 << bits) < 1_000;
        let cut = [16, 32].into_iter().filter(|&bits| few(bits));
        let many = TOO_MANY
            .contains(&self.steps)
            .then_some(("38, steps", self.steps));
        let cut = cut.map(|bits| ("38, few if cut to bits", bits));
        cut.chain(many).collect()
    }

    /// The faults that are there too and are not told, of which 38 hides all. Of a list that is refused at an entry or behind its last it can be said
    /// what data it needs.
    fn hidden_rows(&self, needed: Option<usize>, refusal: u64) -> Vec<Row> {
        let (list, store, form) = (&self.case.areas[0], &self.case.areas[2], self.form());
        let (now, before, after) = (self.case.numbers[2] as u32, self.before, self.after);
        let hides = |by: &[u64]| refusal == 38 || by.contains(&refusal);
        let wrong = || {
            let found = reference::check_step(list, form, 0, &[], store, now, before, after);
            matches!(found, Ok(Finding::Wrong(_)))
        };
        let short = needed.is_some_and(|needed| before.len() < needed);
        let broken = self.steps > 0 && self.last != before;
        [
            (
                "before the list's, refusal",
                hides(&[]) && reference::judge(list, form).is_err(),
            ),
            (
                "before 5, refusal",
                hides(&[1, 2, 3, 4]) && store.len() != STORE,
            ),
            ("before 12, refusal", hides(&[3, 4, 5]) && short),
            (
                "before 36, refusal",
                hides(&[1, 2, 3, 4, 5, 12]) && before.len() != after.len(),
            ),
            ("before 37, refusal", refusal != 37 && broken),
            ("before a wrong bit, refusal", hides(&[37]) && wrong()),
        ]
        .into_iter()
        .filter(|&(_, met)| met)
        .map(|(what, _)| (what, refusal))
        .collect()
    }
}

/// The bits at which two areas of one length differ.
fn wrong_bits(ours: &[u8], after: &[u8]) -> Vec<u64> {
    let octets = (0..).zip(ours.iter().zip(after));
    octets
        .filter(|(_, (a, b))| a != b)
        .flat_map(|(octet, (a, b))| {
            let wrong = a ^ b;
            let places = (0..8).filter(move |place| wrong >> (7 - place) & 1 == 1);
            places.map(move |place| 8 * octet + place)
        })
        .collect()
}

/// A step of which a bit is named.
struct Wrong<'a> {
    step: &'a Step<'a>,
    list: &'a List,
    fields: Vec<Range<u64>>,
    /// The bit that is named, and the route, if it lies in one, with the reason.
    address: u64,
    route: Option<(usize, u64)>,
}

impl<'a> Wrong<'a> {
    fn new(step: &'a Step<'a>, list: &'a List, answer: &Answer) -> Self {
        let [_, octet, bit, in_route, route, reason, ..] = answer.gives;
        Wrong {
            step,
            list,
            fields: fields(list),
            address: 8 * octet + bit,
            route: (in_route != 0).then_some((route as usize, reason)),
        }
    }

    fn rows(&self) -> Vec<Row> {
        let (bit, bits) = (self.address % 8, 8 * self.step.after.len() as u64);
        let own = match self.route {
            Some((route, reason)) => {
                let field = &self.fields[route];
                let width = field.end - field.start;
                let of = [
                    ("in a route, reason", reason),
                    ("in a route of width", width),
                    ("in a route, bit", bit),
                ];
                [self.inside_rows(route, field, bits), of.to_vec()].concat()
            }
            None => [self.outside_rows(bits), vec![("in no route, bit", bit)]].concat(),
        };
        [
            own,
            self.behind_rows(),
            vec![("wrong, step", self.step.steps)],
        ]
        .concat()
    }

    fn inside_rows(&self, route: usize, field: &Range<u64>, bits: u64) -> Vec<Row> {
        let (a, count) = (self.address, self.fields.len());
        let (first, last) = (a == field.start, a == field.end - 1);
        let before = route.checked_sub(1).map(|at| &self.fields[at]);
        let behind = self.fields.get(route + 1);
        let nine = (field.end - 1) / 8 - field.start / 8 == 8;
        let of = [
            first,
            last,
            !first && !last,
            first && last,
            first && before.is_some_and(|field| field.end == a),
            last && behind.is_some_and(|field| field.start == a + 1),
            nine && a / 8 == field.start / 8,
            nine && a / 8 == (field.end - 1) / 8,
            count > 1 && route == 0,
            count > 1 && route == count - 1,
            route == MOST[3] - 1,
            a / 8 == 255,
            a == ROUTED - 1,
            a == bits - 1,
        ];
        met(INSIDE, of)
    }

    fn outside_rows(&self, bits: u64) -> Vec<Row> {
        let a = self.address;
        let before = self.fields.iter().rfind(|field| field.end <= a);
        let behind = self.fields.iter().find(|field| field.start > a);
        let between = before.zip(behind).map(|(b, n)| b.end..n.start);
        let gap = |of: fn(&Range<u64>, u64) -> bool| between.as_ref().is_some_and(|gap| of(gap, a));
        let last = before
            .filter(|_| behind.is_none())
            .map(|field| (field.end - 1) / 8);
        let of = [
            before.is_none() && behind.is_some(),
            between.is_some(),
            gap(|gap, _| gap.end - gap.start == 1),
            gap(|gap, a| gap.end - gap.start > 1 && a == gap.start),
            gap(|gap, a| gap.end - gap.start > 1 && a == gap.end - 1),
            last == Some(a / 8),
            last.is_some_and(|octet| octet < a / 8),
            a / 8 == 255,
            a / 8 == 256,
            a / 8 > 256,
            a == bits - 1,
            a == bits - 1 && a / 8 > 256,
            self.list.routes.is_empty(),
        ];
        met(OUTSIDE, of)
    }

    /// What else differs from what the reference marshals.
    fn behind_rows(&self) -> Vec<Row> {
        let step = self.step;
        let mut ours = step.before.to_vec();
        let (list, store, now) = (
            &step.case.areas[0],
            &step.case.areas[2],
            step.case.numbers[2],
        );
        let _ = reference::marshal(list, step.form(), store, now as u32, &mut ours);
        let wrong = wrong_bits(&ours, step.after);
        let route_of = |address: u64| {
            self.fields
                .iter()
                .position(|field| field.contains(&address))
        };
        let others: Vec<Option<usize>> = wrong.iter().skip(1).map(|&a| route_of(a)).collect();
        let own = self.route.map(|(route, _)| route);
        let elsewhere = |other: &Option<usize>| other.is_some() && *other != own;
        let kept = wrong_bits(step.before, step.after);
        let left = |route: usize| !kept.iter().any(|a| self.fields[route].contains(a));
        let of = [
            others.is_empty(),
            own.is_some() && others.contains(&own),
            own.is_some() && others.iter().any(elsewhere),
            own.is_some() && others.contains(&None),
            own.is_none() && others.iter().any(elsewhere),
            own.is_none() && others.contains(&None),
            own.is_some_and(left),
        ];
        met(BEHIND, of)
    }
}
