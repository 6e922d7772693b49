//! What the cases reached. A call that was never refused for a reason, or never answered in a way, was not compared there.

use std::collections::{BTreeMap, BTreeSet};
use std::fmt;

use crate::case::{is_scaled, Answer, Call, Case, KINDS};
use crate::changed;
use crate::checked;
use crate::christened;
use crate::gathered;
use crate::list::{longest, sizes, Route, Signal, MOST};
use crate::profiled;
use crate::relayed;
use crate::remedied;
use crate::store::{stamp_at, OLD_STORE};
use crate::summed_up;
use reference::{Form, HEAD, HEARD, PREVIOUS, SIGNAL_SIZE, SLOT, STAMP, VEHICLES};

/// What an answer shows, with a number where there are several.
pub type Row = (&'static str, u64);

pub struct Reached {
    wanted: BTreeMap<(Call, Row), u64>,
    /// Refusals that a call cannot give, though both implementations gave them.
    strange: BTreeSet<(Call, Row)>,
}

/// The same with each of these numbers.
pub fn each(what: &'static str, numbers: &[u64]) -> Vec<Row> {
    numbers.iter().map(|&n| (what, n)).collect()
}

/// All that each call can give.
fn wanted(call: Call) -> Vec<Row> {
    let refusals = |numbers: &[u64]| each("refusal", numbers);
    let in_forms = each("in form", &[0, 1, 2, 3, 255]);
    let moved = vec![
        ("moved", 0),
        ("no signal", 0),
        ("longest", 0),
        ("output too short", 0),
        ("output too long", 0),
    ];
    let rows = match call {
        Call::Judge => [
            [
                vec![("ok", 0), ("ends inside a serial number", 0)],
                each("longest, form", &[1, 2]),
                in_forms.clone(),
                each("form 2, refusal", &[1, 2, 3, 4]),
                each("form 2, behind the signals, refusal", &[1, 2, 3, 4]),
                each("refused, but good in form", &[1, 2]),
            ]
            .concat(),
            vec![
                ("checks", 64),
                ("signals", 256),
                ("codes", 512),
                ("routes", 512),
            ],
            [each("widest", &[48, 49, 63, 64]), refusals(&[1, 2, 3, 4])].concat(),
        ],
        Call::JudgeProfile => [profiled::wanted(), refusals(&[1, 2, 3, 4, 34]), in_forms],
        Call::Extends => [
            [
                vec![("yes", 0), ("no", 0)],
                each("yes, forms", &[11, 12, 21, 22]),
                each("no, forms", &[11, 12, 21, 22]),
                each("refused, forms", &[11, 12, 21, 22]),
            ]
            .concat(),
            each("first refused", &[1, 2, 3, 4]),
            each("second refused", &[1, 2, 3, 4]),
        ],
        Call::SignalChange | Call::RouteChange | Call::CodesGained => {
            [changed::wanted(call), vec![], vec![]]
        }
        Call::SignalEntry => [
            each("type", &[0, 1, 2]),
            [vec![("no check", 0), ("a check", 0)], in_forms].concat(),
            refusals(&[1, 2, 3, 4, 11]),
        ],
        Call::FindSignal => [
            each("type", &[0, 1, 2]),
            refusals(&[1, 2, 3, 4, 11]),
            in_forms,
        ],
        Call::Serial => [
            [vec![("set", 0)], each("none, form", &[1, 2])].concat(),
            refusals(&[1, 2, 3, 4, 11]),
            in_forms,
        ],
        Call::ToForm2 => [
            [moved, each("refused, but good in form", &[2])].concat(),
            each("before 33, refusal", &[3, 4]),
            refusals(&[1, 2, 3, 4, 33]),
        ],
        Call::ToForm1 => [
            [moved, each("refused, but good in form", &[1])].concat(),
            [
                each("before 32, refusal", &[1, 2, 3, 4]),
                each("before 33, refusal", &[3, 4, 32]),
            ]
            .concat(),
            refusals(&[1, 2, 3, 4, 32, 33]),
        ],
        Call::CheckPlace => [
            (320..=352)
                .step_by(2)
                .map(|place| ("place", place))
                .collect(),
            refusals(&[27]),
            vec![],
        ],
        Call::Take => [
            each("type", &[1, 2, 3]),
            refusals(&[5, 6, 7, 8, 9, 10]),
            [
                each("into heard octet", &[1, 2]),
                vec![("into any other", 0), ("over a head of no R-telegram", 0)],
            ]
            .concat(),
        ],
        Call::Gap => [
            GAPS.map(|what| (what, 0)).to_vec(),
            refusals(&[5, 6]),
            vec![("5 before 6", 0)],
        ],
        Call::Sweep => [
            vec![("none", 0), ("one", 0), ("several", 0), ("all", 0)],
            vec![("at 600000 ms kept", 0), ("at 600001 ms", 0)],
            refusals(&[5]),
        ],
        Call::Read => [
            [
                each("reason", &[0, 1, 2, 3, 4, 5, 6, 7, 8]),
                each("expired, reason", &[0, 1, 2, 3, 4, 5, 6, 7, 8]),
                vec![("expired, its age within the limit", 0)],
                in_forms,
            ]
            .concat(),
            refusals(&[1, 2, 3, 4, 5, 6, 11]),
            // Reason 8 is for widths up to 16.
            each("above 48 bits, reason", &[0, 1, 2, 3, 4, 5, 6, 7]),
        ],
        Call::ReadAll | Call::ReadTrain => [
            gathered::wanted(call),
            refusals(&[1, 2, 3, 4, 5, 6, 13]),
            in_forms,
        ],
        Call::Show => [
            [
                each("live ok, kind", &KINDS),
                each("live forced, kind", &KINDS),
                each("replaced, not by 0, kind", &KINDS),
                each("above 48 bits, reason", &[0, 1, 2, 3, 4, 5, 6, 7]),
                in_forms,
            ]
            .concat(),
            [
                each("scaled, reason", &[0, 1, 2, 3, 4, 5, 6, 7, 8]),
                each("scaled, form", &[1, 2]),
                each("0, kind", &[1, 2, 3, 4]),
                each("live, top bit set, kind", &[1, 2, 3, 4]),
                each("replaced, top bit set, kind", &[1, 2, 3, 4]),
            ]
            .concat(),
            [
                refusals(&[1, 2, 3, 4, 5, 6, 11, 26]),
                each("26, form", &[1, 2]),
                each("26, width", &[15, 17]),
                each("before 26, refusal", &[1, 2, 3, 4, 5, 6, 11]),
            ]
            .concat(),
        ],
        Call::Marshal => [
            vec![
                ("no route", 0),
                ("none live", 0),
                ("some live", 0),
                ("all live", 0),
            ],
            refusals(&[1, 2, 3, 4, 5, 12]),
            [vec![("64 bits to bit 2048", 0)], in_forms].concat(),
        ],
        Call::Compose => [
            each("type", &[1, 2, 3]),
            refusals(&[1, 2, 3, 4, 9, 13, 14, 15, 16]),
            [
                each("greatest value, width", &[48, 49, 63, 64]),
                each("above 48 bits, refusal", &[15]),
                in_forms,
            ]
            .concat(),
        ],
        Call::Relay => [
            each("type", &[1, 2, 3]),
            refusals(&[1, 2, 3, 4, 5, 6, 9, 15, 16]),
            [relayed::wanted(), in_forms].concat(),
        ],
        Call::Resolve => [
            each("address", &[1, 63, 64, 65, 66, 67, 70, 92]),
            refusals(&[17, 18, 19, 20]),
            vec![],
        ],
        Call::Property => [christened::wanted(call), vec![], vec![]],
        Call::Christen => [christened::wanted(call), refusals(&[17, 18, 31]), vec![]],
        Call::CheckStep => [
            checked::wanted(),
            refusals(&[1, 2, 3, 4, 5, 12, 36, 37, 38]),
            in_forms,
        ],
        Call::Doors => [
            summed_up::wanted(),
            refusals(&[1, 2, 3, 4, 5, 17, 18, 19, 20, 35]),
            in_forms,
        ],
        Call::ERead => [
            vec![("request", 0), ("report", 0)],
            refusals(&[21, 22]),
            remedied::wanted(call),
        ],
        Call::EAnswer => [
            vec![("ok", 0)],
            refusals(&[21, 22, 23, 24, 25]),
            remedied::wanted(call),
        ],
        Call::ReadRemedies | Call::RemedyBlock => {
            [remedied::wanted(call), refusals(&[21, 28, 29, 30]), vec![]]
        }
        Call::WriteRemedies => [remedied::wanted(call), refusals(&[25, 29, 30]), vec![]],
    };
    let old = match call.parameters().areas.contains(&"store") {
        true => each("store refused, octets", &[OLD_STORE as u64]),
        false => vec![],
    };
    [rows.concat(), old].concat()
}

/// What one answer shows.
fn rows(case: &Case, answer: &Answer) -> Vec<Row> {
    let refusal = u64::from(answer.refusal);
    let [first, second, ..] = answer.gives;
    if refusal != 0 {
        let two_lists = case.call.parameters().areas.contains(&"list B");
        return match (two_lists, second) {
            (true, 1) => vec![("first refused", refusal)],
            (true, _) => vec![("second refused", refusal)],
            _ => vec![("refusal", refusal)],
        };
    }
    match case.call {
        Call::Judge => {
            let mut rows = vec![("ok", 0)];
            let names = ["checks", "signals", "codes", "routes"];
            for ((name, most), count) in names.into_iter().zip(MOST).zip(answer.gives) {
                if count == most as u64 {
                    rows.push((name, count));
                }
            }
            for form in [1, 2] {
                if case.areas[0].len() == longest(form) {
                    rows.push(("longest, form", form));
                }
            }
            rows
        }
        Call::Extends => vec![(["no", "yes"][first as usize], 0)],
        Call::SignalEntry => {
            let [_, _, kind, check, ..] = answer.gives;
            let under = if check == 0 { "no check" } else { "a check" };
            vec![("type", kind), (under, 0)]
        }
        Call::FindSignal => vec![("type", case.numbers[1])],
        Call::Serial if first == 0 => vec![("none, form", form_of(case, 0))],
        Call::Serial => vec![("set", 0)],
        Call::ToForm2 | Call::ToForm1 => vec![("moved", 0)],
        Call::CheckPlace => vec![("place", first)],
        Call::Take => take_rows(&case.areas, case.numbers[0]),
        Call::Gap => gap_rows(slot_of(&case.areas[0], case.numbers[0]), first),
        Call::Sweep => sweep_rows(&case.areas[0], case.numbers[0] as u32),
        Call::Read => read_rows(case, second),
        Call::Show => show_rows(case.numbers[4], answer),
        Call::Marshal => vec![(lives(case, first), 0)],
        Call::Compose => vec![("type", case.numbers[1])],
        // What is told of these stands in `gathered`, in `profiled`, in `relayed`, in `christened`, in `checked`, in `summed_up`, in `remedied` and
        // in `changed`.
        Call::ReadAll | Call::ReadTrain => vec![],
        Call::JudgeProfile | Call::Relay | Call::Property | Call::Christen => vec![],
        Call::CheckStep | Call::Doors => vec![],
        Call::ReadRemedies | Call::RemedyBlock | Call::WriteRemedies => vec![],
        Call::SignalChange | Call::RouteChange | Call::CodesGained => vec![],
        Call::Resolve => vec![("address", case.numbers[0])],
        Call::ERead => vec![(["request", "report"][second as usize], 0)],
        Call::EAnswer => vec![("ok", 0)],
    }
}

/// A vehicle's slot, and what is behind it.
pub fn slot_of(store: &[u8], vehicle: u64) -> &[u8] {
    &store[SLOT * (vehicle as usize - 1)..]
}

pub fn is_r_head(head: u8) -> bool {
    matches!(head, 0x11..=0x13)
}

/// The type that is taken, and what it is taken into.
fn take_rows(areas: &[Vec<u8>], vehicle: u64) -> Vec<Row> {
    let slot = slot_of(&areas[0], vehicle);
    let into = match slot[HEARD] {
        heard @ (1 | 2) => ("into heard octet", heard.into()),
        _ => ("into any other", 0),
    };
    let over = into.1 != 0 && !is_r_head(slot[HEAD]);
    [("type", (areas[1][0] & 15).into()), into]
        .into_iter()
        .chain(over.then_some(("over a head of no R-telegram", 0)))
        .collect()
}

/// What a gap can be of.
const GAPS: [&str; 8] = [
    "heard",
    "expired",
    "any other octet, stamps apart",
    "none",
    "the stamp",
    "round the counter",
    "over 2^31",
    "with a head of no R-telegram",
];

fn gap_rows(slot: &[u8], gap: u64) -> Vec<Row> {
    let (stamp, previous) = (stamp_at(slot, STAMP), stamp_at(slot, PREVIOUS));
    let heard = matches!(slot[HEARD], 1 | 2);
    let met = [
        slot[HEARD] == 1,
        slot[HEARD] == 2,
        !heard && stamp != previous,
        heard && gap == 0,
        heard && previous == 0 && stamp != 0,
        gap != 0 && stamp < previous,
        gap > 1 << 31,
        gap != 0 && !is_r_head(slot[HEAD]),
    ];
    let met = GAPS.into_iter().zip(met).filter(|&(_, met)| met);
    met.map(|(what, _)| (what, 0)).collect()
}

/// What it shows of stores of another length.
fn length_rows(case: &Case, answer: &Answer) -> Vec<Row> {
    let areas = case.call.parameters().areas.iter().zip(&case.areas);
    let store = areas
        .filter(|(&name, _)| name == "store")
        .map(|(_, area)| area.len());
    let old = answer.refusal == 5 && store.into_iter().any(|len| len == OLD_STORE);
    let early = answer.refusal == 5
        && case.call == Call::Gap
        && !(1..=VEHICLES as u64).contains(&case.numbers[0]);
    [
        old.then_some(("store refused, octets", OLD_STORE as u64)),
        early.then_some(("5 before 6", 0)),
    ]
    .into_iter()
    .flatten()
    .collect()
}

/// How many slots a sweep expires, and what is said of those at its edge: the areas of a case are those before the call.
fn sweep_rows(store: &[u8], now: u32) -> Vec<Row> {
    let heard = store.chunks(SLOT).filter(|slot| slot[HEARD] == 1);
    let ages: Vec<u32> = heard.map(|slot| age(slot, now)).collect();
    let expired = match ages.iter().filter(|&&age| age > 600_000).count() {
        0 => "none",
        1 => "one",
        VEHICLES => "all",
        _ => "several",
    };
    let edges = [(600_000, "at 600000 ms kept"), (600_001, "at 600001 ms")];
    let met = edges.into_iter().filter(|(age, _)| ages.contains(age));
    [(expired, 0)]
        .into_iter()
        .chain(met.map(|(_, what)| (what, 0)))
        .collect()
}

fn age(slot: &[u8], now: u32) -> u32 {
    now.wrapping_sub(stamp_at(slot, STAMP))
}

fn read_rows(case: &Case, reason: u64) -> Vec<Row> {
    let (now, vehicle, signal) = (case.numbers[1], case.numbers[2], case.numbers[3]);
    let slot = slot_of(&case.areas[1], vehicle);
    let mut rows = vec![("reason", reason)];
    if slot[HEARD] == 2 {
        rows.push(("expired, reason", reason));
        let list = case.list_at(0);
        let limit = list.map_or(0, |list| list.signals[signal as usize].limit);
        if reason == 3 && u64::from(age(slot, now as u32)) <= limit {
            rows.push(("expired, its age within the limit", 0));
        }
    }
    rows
}

/// How a reading was shown.
fn show_rows(kind: u64, answer: &Answer) -> Vec<Row> {
    let [reason, code, _, value, ..] = answer.gives;
    let how = match (reason, code | value) {
        (0, _) => "live ok, kind",
        (1, _) => "live forced, kind",
        (_, 0) => "replaced by 0, kind",
        _ => "replaced, not by 0, kind",
    };
    vec![(how, kind)]
}

/// What it shows of the scaled kinds: of which readings, and what is told of a signal that is not 16 bits wide.
fn scaled_rows(case: &Case, answer: &Answer) -> Vec<Row> {
    let &[_, clock, vehicle, signal, kind] = &case.numbers[..] else {
        return vec![];
    };
    if case.call != Call::Show || !is_scaled(kind) {
        return vec![];
    }
    let (list, store, form) = (&case.areas[0], &case.areas[1], form_of(case, 0));
    let width = width_of(list, form, signal);
    match (answer.refusal, width) {
        (0, _) => {
            let read = reference::read(list, Form::of(form), store, clock as u32, vehicle, signal);
            let reading = read.map_or((0, 0), |read| (read.value, read.reason));
            let of = match reading {
                (0, _) => "0, kind",
                (0x8000.., 0 | 1) => "live, top bit set, kind",
                (0x8000.., _) => "replaced, top bit set, kind",
                _ => "top bit not set, kind",
            };
            let reason = ("scaled, reason", reading.1.into());
            vec![reason, ("scaled, form", form), (of, kind)]
        }
        (26, Some(width @ (15 | 17))) => vec![("26, form", form), ("26, width", width)],
        (26, _) => vec![("26, form", form)],
        (1..=6, None | Some(16)) => vec![],
        (refusal, _) => vec![("before 26, refusal", refusal.into())],
    }
}

/// The width of a signal by its number, if the list goes so far.
fn width_of(list: &[u8], form: u64, signal: u64) -> Option<u64> {
    let [check, size, ..] = sizes(form);
    let signals = 2 + check * count_at(list, 0)?;
    let number = usize::try_from(signal).ok()?;
    let entries = list.get(signals + 2..)?.chunks(size);
    let mut entries = entries.take(count_at(list, signals)?);
    entries.nth(number)?.get(2).map(|&width| width.into())
}

/// What it shows of wide fields, by the list that it goes by.
fn wide_rows(case: &Case, answer: &Answer) -> Vec<Row> {
    let list = match case.call {
        Call::Judge | Call::Read | Call::Show | Call::Marshal | Call::Compose => case.list_at(0),
        _ => None,
    };
    let Some(list) = list else {
        return vec![];
    };
    let width = |signal: u64| list.signals.get(signal as usize).map_or(0, |s| s.width);
    match (case.call, answer.refusal) {
        (Call::Judge, 0) => {
            let widest = list.signals.iter().map(|s| s.width).max();
            vec![("widest", widest.unwrap_or(0))]
        }
        (Call::Read, 0) if width(case.numbers[3]) > 48 => {
            vec![("above 48 bits, reason", answer.gives[1])]
        }
        (Call::Show, 0) if width(case.numbers[3]) > 48 => {
            vec![("above 48 bits, reason", answer.gives[0])]
        }
        (Call::Marshal, 0) => {
            let last = |route: &&Route| width(route.signal) == 64 && route.start == 2_048 - 64;
            let found = list.routes.iter().find(last);
            found
                .map(|_| ("64 bits to bit 2048", 0))
                .into_iter()
                .collect()
        }
        (Call::Compose, 0) => {
            let greatest =
                |&(s, &value): &(&Signal, &u64)| s.carried_by(case.numbers[1]) && value == s.top();
            let written = list.signals.iter().zip(&case.values).filter(greatest);
            written
                .map(|(s, _)| ("greatest value, width", s.width))
                .collect()
        }
        (Call::Compose, 15) if width(answer.carried) > 48 => {
            vec![("above 48 bits, refusal", 15)]
        }
        _ => vec![],
    }
}

/// The form of the list in an area, 1 or 2.
fn form_of(case: &Case, area: usize) -> u64 {
    Form::of(case.form_at(area)) as u64
}

/// What it shows of the forms of its lists.
fn form_rows(case: &Case, answer: &Answer) -> Vec<Row> {
    match (case.call, answer.refusal) {
        (Call::Judge, 1..) => refused_rows(case, answer),
        (Call::Extends, refusal) => {
            let what = match (refusal, answer.gives[0]) {
                (0, 0) => "no, forms",
                (0, _) => "yes, forms",
                _ => "refused, forms",
            };
            vec![(what, 10 * form_of(case, 0) + form_of(case, 1))]
        }
        (Call::ToForm2 | Call::ToForm1, refusal) => move_rows(case, refusal.into()),
        (_, 0) if case.call.parameters().numbers.first() == Some(&"form") => {
            vec![("in form", case.numbers[0])]
        }
        _ => vec![],
    }
}

/// A list that is refused, in form 2: where. And whether the other form would have been the right one.
fn refused_rows(case: &Case, answer: &Answer) -> Vec<Row> {
    let (list, refusal) = (&case.areas[0], u64::from(answer.refusal));
    let mut rows = other_form(case);
    if form_of(case, 0) == 2 {
        rows.push(("form 2, refusal", refusal));
        let checks = list.first_chunk().map_or(0, |&n| u16::from_be_bytes(n));
        let signals = 2 + 2 * usize::from(checks);
        if refusal == 1 && answer.carried == signals as u64 && ends_inside_serial(list, signals) {
            rows.push(("ends inside a serial number", 0));
        }
        if serials(list).is_some_and(|(behind, _)| answer.carried >= behind as u64) {
            rows.push(("form 2, behind the signals, refusal", refusal));
        }
    }
    rows
}

/// Whether a list that is refused is good in the form that was not said.
fn other_form(case: &Case) -> Vec<Row> {
    let (form, other) = match form_of(case, 0) {
        1 => (2, Form::Two),
        _ => (1, Form::One),
    };
    let good = reference::judge(&case.areas[0], other).is_ok();
    good.then_some(("refused, but good in form", form))
        .into_iter()
        .collect()
}

/// Whether a list of form 2, its signals' count at this offset, ends behind the first octet of a serial number.
fn ends_inside_serial(list: &[u8], signals: usize) -> bool {
    let entries = list.len().saturating_sub(signals + 2);
    entries % sizes(2)[1] == SIGNAL_SIZE + 1
}

/// A count of a list, by its offset.
pub fn count_at(list: &[u8], at: usize) -> Option<usize> {
    let &octets = list.get(at..)?.first_chunk()?;
    Some(usize::from(u16::from_be_bytes(octets)))
}

/// Where the signals of a list of form 2 end, and whether a serial number is set, if checks and signals are all there.
fn serials(list: &[u8]) -> Option<(usize, bool)> {
    let [check, signal, ..] = sizes(2);
    let signals = 2 + check * count_at(list, 0)?;
    let entries = list.get(signals + 2..)?;
    let entries = entries.get(..signal * count_at(list, signals)?)?;
    let set = |entry: &[u8]| entry[SIGNAL_SIZE..].iter().any(|&octet| octet != 0);
    Some((signals + 2 + entries.len(), entries.chunks(signal).any(set)))
}

/// How the output's length fits the list, where all its entries are there; and which of two faults is told.
fn move_rows(case: &Case, refusal: u64) -> Vec<Row> {
    let mut rows = vec![];
    if (1..=4).contains(&refusal) {
        rows = other_form(case);
        let set = serials(&case.areas[0]).is_some_and(|(_, set)| set);
        if case.call == Call::ToForm1 && set {
            rows.push(("before 32, refusal", refusal));
        }
    }
    let Some(mut list) = case.list_at(0) else {
        return rows;
    };
    let from = list.form;
    list.form = 3 - from;
    let (needed, len) = (list.octets().len(), case.areas[1].len());
    match refusal {
        0 if list.signals.is_empty() => rows.push(("no signal", 0)),
        0 if case.areas[0].len() == longest(from) => rows.push(("longest", 0)),
        3 | 4 | 32 if len != needed => rows.push(("before 33, refusal", refusal)),
        33 if len < needed => rows.push(("output too short", 0)),
        33 => rows.push(("output too long", 0)),
        _ => {}
    }
    rows
}

/// How many of a good list's routes were live.
fn lives(case: &Case, lives: u64) -> &'static str {
    let counts = reference::judge(&case.areas[0], Form::of(case.form_at(0)));
    let routes = counts.map_or(0, |counts| counts.routes as u64);
    match lives {
        _ if routes == 0 => "no route",
        0 => "none live",
        _ if lives == routes => "all live",
        _ => "some live",
    }
}

impl Reached {
    pub fn new() -> Self {
        let rows = |call| wanted(call).into_iter().map(move |row| ((call, row), 0));
        Reached {
            wanted: Call::ALL.into_iter().flat_map(rows).collect(),
            strange: BTreeSet::new(),
        }
    }

    pub fn count(&mut self, case: &Case, answer: &Answer) {
        let all = [
            rows,
            wide_rows,
            form_rows,
            length_rows,
            scaled_rows,
            gathered::rows,
            profiled::rows,
            relayed::rows,
            christened::rows,
            checked::rows,
            summed_up::rows,
            remedied::rows,
            changed::rows,
        ];
        let all = all.map(|rows| rows(case, answer));
        for row in all.concat() {
            let row = (case.call, row);
            match self.wanted.get_mut(&row) {
                Some(count) => *count += 1,
                None if answer.refusal != 0 => drop(self.strange.insert(row)),
                None => {}
            }
        }
    }

    pub fn rows(&self) -> usize {
        self.wanted.len()
    }

    /// What no case reached, and what none should have.
    pub fn faults(&self) -> Vec<String> {
        let said = |what: &str, (call, row): &(Call, Row)| {
            format!("{what}: {} {}", call.parameters().name, named(*row))
        };
        let missing = self.wanted.iter().filter(|(_, &count)| count == 0);
        missing
            .map(|(row, _)| said("UNREACHED", row))
            .chain(self.strange.iter().map(|row| said("STRANGE", row)))
            .collect()
    }
}

fn named((what, number): Row) -> String {
    match number {
        0 if ![
            "kind",
            "type",
            "form",
            "reason",
            "profile",
            "signals",
            "breaks",
            "found, block",
            "text octets",
            "octet 23 is",
            "mark",
            "set, bit",
            "no row",
            "size",
            "checks",
            "vehicles",
            "route, bit",
            "step",
            "octets of data",
            "6, vehicle",
            "6, last",
        ]
        .iter()
        .any(|end| what.ends_with(end)) =>
        {
            what.to_string()
        }
        _ => format!("{what} {number}"),
    }
}

impl fmt::Display for Reached {
    fn fmt(&self, f: &mut fmt::Formatter) -> fmt::Result {
        for call in Call::ALL {
            write!(f, "{:15}", call.parameters().name)?;
            let of = self.wanted.iter().filter(|((of, _), _)| *of == call);
            for (i, ((_, row), count)) in of.enumerate() {
                match i % 7 {
                    0 if i > 0 => write!(f, "\n{:15}", "")?,
                    0 => {}
                    _ => write!(f, ", ")?,
                }
                write!(f, "{}: {count}", named(*row))?;
            }
            writeln!(f)?;
        }
        Ok(())
    }
}
