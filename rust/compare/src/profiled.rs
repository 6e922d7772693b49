//! What a case of judging by a profile shows: which rule is broken, alone or beside others, what else is at fault and is not told, and how near
//! to the ends of its rules an accepted list comes.

use crate::case::{Answer, Call, Case, PROFILES};
use crate::list::{sizes, List, Signal};
use crate::narrow::{DATA, LIMIT, ROWS, SIGNALS};
use crate::reached::{count_at, each, Row};
use reference::{judge_profile, Form, Profile};

/// Profile 1 or 2 and form 1 or 2, as one number.
const BOTH: [u64; 4] = [11, 12, 21, 22];
const COACHES: [u64; 2] = [11, 12];
const TRAILERS: [u64; 2] = [21, 22];

/// What judging by a profile can show, beside its forms and refusals.
pub fn wanted() -> Vec<Row> {
    let places: Vec<u64> = ROWS.iter().map(|row| row.place).collect();
    [wanted_accepted(&places), wanted_refused()].concat()
}

fn wanted_accepted(places: &[u64]) -> Vec<Row> {
    let flags = [
        "accepted, a replacement among codes",
        "accepted, a replacement without codes",
        "accepted, R1 from the first bit of the rows",
        "accepted, R1 to the last bit of the rows",
        "accepted, R1 of a whole row",
        "accepted, R1 up to the next row",
        "accepted, R1 alone",
    ];
    [
        flags.map(|what| (what, 0)).to_vec(),
        each("accepted, profile", &PROFILES),
        each("accepted with R1, form", &[1, 2]),
        each("accepted, R1 under place", places),
        each("accepted, limit", &[1, LIMIT]),
        each("accepted, signals", &[0, 63, 64]),
        each("accepted, data bits", &[DATA]),
    ]
    .concat()
}

fn wanted_refused() -> Vec<Row> {
    let flags = [
        "34, several rules of a signal",
        "34, a 65th with another fault",
        "34, the first signal",
        "34, behind a good signal",
        "34, a signal, and another behind it",
        "34, a signal, and a route",
        "34, a route, and another behind it",
        "34, behind a good route",
        "34, R1 of two rows, under the first",
        "34, R1 of two rows, under the second",
        "34, R1 from before the rows, under the first",
        "34, R1 to behind the rows, under the last",
        "34, a driving trailer's elsewhere",
    ];
    [
        flags.map(|what| (what, 0)).to_vec(),
        each("34, profile", &PROFILES),
        each("34, but a driving trailer's, form", &[1, 2]),
        each("34, R1, profile and form", &COACHES),
        each("34, R2, profile and form", &BOTH),
        each("34, a 65th, profile and form", &BOTH),
        each("34, no check, profile and form", &BOTH),
        each("34, no limit, profile and form", &BOTH),
        each("34, limit too long, profile and form", &BOTH),
        each("34, unknown replacement, profile and form", &BOTH),
        each("34, R1 out of the rows, profile and form", &TRAILERS),
        each("34, R1 of two rows, profile and form", &TRAILERS),
        each("34, R1 under another place, profile and form", &TRAILERS),
        each("34, a route, profile and form", &BOTH),
        each("34, limit", &[LIMIT + 1]),
        each("34, signals", &[65]),
        each("34, data bits", &[DATA + 1]),
        each("before 34, refusal", &[1, 2, 3, 4]),
    ]
    .concat()
}

/// What one answer shows.
pub fn rows(case: &Case, answer: &Answer) -> Vec<Row> {
    if case.call != Call::JudgeProfile {
        return vec![];
    }
    let (octets, form, said) = (&case.areas[0], Form::of(case.form_at(0)), case.numbers[1]);
    let profile = Profile::of(said);
    match (answer.refusal, case.list_at(0)) {
        (0, Some(list)) => [
            vec![("accepted, profile", said)],
            accepted_rows(&list, form as u64),
        ]
        .concat(),
        (34, Some(list)) => {
            let told = told_rows(&list, profile, answer.carried);
            let trailers = match judge_profile(Profile::DrivingTrailer, octets, form) {
                Ok(_) => vec![("34, but a driving trailer's, form", form as u64)],
                Err(other) if other.carried != answer.carried => {
                    vec![("34, a driving trailer's elsewhere", 0)]
                }
                Err(_) => vec![],
            };
            [vec![("34, profile", said)], told, trailers].concat()
        }
        (refusal @ 1..=4, _) if breaks_early(octets, form as u64, profile) => {
            vec![("before 34, refusal", refusal.into())]
        }
        _ => vec![],
    }
}

/// The check places of a field's first and last bit, where they have any: the same, if all its bits have the same.
fn places(s: &Signal) -> [Option<u64>; 2] {
    [s.start, s.end() - 1].map(|bit| reference::check_place(bit).ok())
}

/// The rules that a signal breaks.
fn broken(list: &List, number: usize, profile: Profile) -> Vec<&'static str> {
    let s = &list.signals[number];
    let r1 = s.kind == 1 && profile == Profile::DrivingTrailer;
    let ends = places(s);
    let row = match ends {
        [Some(first), Some(last)] if first == last => Some(first),
        _ => None,
    };
    let rules = [
        ("34, R1, profile and form", s.kind == 1 && !r1),
        ("34, R2, profile and form", s.kind == 2),
        ("34, a 65th, profile and form", number >= SIGNALS),
        ("34, no check, profile and form", s.check == 0),
        ("34, no limit, profile and form", s.limit == 0),
        ("34, limit too long, profile and form", s.limit > LIMIT),
        (
            "34, unknown replacement, profile and form",
            !list.knows(number, s.replacement),
        ),
        (
            "34, R1 out of the rows, profile and form",
            r1 && ends.contains(&None),
        ),
        (
            "34, R1 of two rows, profile and form",
            r1 && row.is_none() && !ends.contains(&None),
        ),
        (
            "34, R1 under another place, profile and form",
            r1 && s.check != 0 && row.is_some() && row != list.place(s),
        ),
    ];
    let broken = rules.into_iter().filter(|&(_, is_broken)| is_broken);
    broken.map(|(rule, _)| rule).collect()
}

/// Where the routes of a list end.
fn ends(list: &List) -> Vec<u64> {
    let end = |signal: u64, start| start + list.signals[signal as usize].width;
    let routes = list.routes.iter();
    routes.map(|route| end(route.signal, route.start)).collect()
}

/// The entry that is told, and what else is at fault.
fn told_rows(list: &List, profile: Profile, carried: u64) -> Vec<Row> {
    let [check, size, code, entry] = sizes(list.form);
    let both = 10 * profile as u64 + Form::of(list.form) as u64;
    let signals = 2 + check * list.checks.len() + 2;
    let behind = signals + size * list.signals.len();
    let routes = behind + 2 + code * list.codes.len() + 2;
    let at = carried as usize;
    if at >= routes {
        return route_rows(list, (at - routes) / entry, both);
    }
    let number = (at - signals) / size;
    let mut rows = signal_rows(list, number, profile, both);
    let others = number + 1..list.signals.len();
    if others
        .into_iter()
        .any(|i| !broken(list, i, profile).is_empty())
    {
        rows.push(("34, a signal, and another behind it", 0));
    }
    if ends(list).iter().any(|&end| end > DATA) {
        rows.push(("34, a signal, and a route", 0));
    }
    rows
}

fn route_rows(list: &List, number: usize, both: u64) -> Vec<Row> {
    let mut rows = vec![("34, a route, profile and form", both)];
    if ends(list).get(number) == Some(&(DATA + 1)) {
        rows.push(("34, data bits", DATA + 1));
    }
    if number > 0 {
        rows.push(("34, behind a good route", 0));
    }
    if number + 1 < list.routes.len() {
        rows.push(("34, a route, and another behind it", 0));
    }
    rows
}

/// A signal that is told: by the rule that it breaks, where it is one.
fn signal_rows(list: &List, number: usize, profile: Profile, both: u64) -> Vec<Row> {
    let (s, rules) = (&list.signals[number], broken(list, number, profile));
    let place = match number {
        0 => "34, the first signal",
        _ => "34, behind a good signal",
    };
    let mut rows = vec![(place, 0)];
    match rules[..] {
        [rule] => rows.push((rule, both)),
        _ if number == SIGNALS => rows.push(("34, a 65th with another fault", 0)),
        _ => rows.push(("34, several rules of a signal", 0)),
    }
    if s.limit == LIMIT + 1 {
        rows.push(("34, limit", s.limit));
    }
    if number == SIGNALS && list.signals.len() == SIGNALS + 1 {
        rows.push(("34, signals", 65));
    }
    if rules.len() == 1 && rules[0].starts_with("34, R1 o") {
        rows.extend(half_rows(s, list.place(s)));
    }
    rows
}

/// An R1 signal that is under the right check with its first bit or with its last, and not with all.
fn half_rows(s: &Signal, place: Option<u64>) -> Option<Row> {
    let [first, last] = places(s);
    match (first.is_some(), last.is_some()) {
        (true, true) if place == first => Some(("34, R1 of two rows, under the first", 0)),
        (true, true) if place == last => Some(("34, R1 of two rows, under the second", 0)),
        (false, true) if place == last => Some(("34, R1 from before the rows, under the first", 0)),
        (true, false) if place == first => Some(("34, R1 to behind the rows, under the last", 0)),
        _ => None,
    }
}

/// How near an accepted list comes to what is not allowed.
fn accepted_rows(list: &List, form: u64) -> Vec<Row> {
    let mut rows = vec![("accepted, signals", list.signals.len() as u64)];
    rows.extend(ends(list).last().map(|&end| ("accepted, data bits", end)));
    for (number, s) in list.signals.iter().enumerate() {
        rows.push(("accepted, limit", s.limit));
        rows.push(match list.codes_of(number).next() {
            Some(_) => ("accepted, a replacement among codes", 0),
            None => ("accepted, a replacement without codes", 0),
        });
        if s.kind == 1 {
            rows.extend(row_rows(s));
        }
    }
    if list.signals.iter().any(|s| s.kind == 1) {
        rows.push(("accepted with R1, form", form));
        if list.signals.iter().all(|s| s.kind == 1) {
            rows.push(("accepted, R1 alone", 0));
        }
    }
    rows
}

/// An R1 signal in its row.
fn row_rows(s: &Signal) -> Vec<Row> {
    let within = |row: &&crate::narrow::Row| row.first <= s.start && s.end() <= row.end;
    let Some((number, row)) = (0..).zip(ROWS.iter()).find(|(_, row)| within(row)) else {
        return vec![];
    };
    let (begins, ends) = (s.start == row.first, s.end() == row.end);
    let met = [
        (
            begins && number == 0,
            "accepted, R1 from the first bit of the rows",
        ),
        (
            ends && number + 1 == ROWS.len(),
            "accepted, R1 to the last bit of the rows",
        ),
        (begins && ends, "accepted, R1 of a whole row"),
        (ends && !begins, "accepted, R1 up to the next row"),
    ];
    let met = met.into_iter().filter(|&(met, _)| met);
    [("accepted, R1 under place", row.place)]
        .into_iter()
        .chain(met.map(|(_, what)| (what, 0)))
        .collect()
}

/// Whether a list that is refused has a signal that breaks the profile, if its checks and signals are all there.
fn breaks_early(octets: &[u8], form: u64, profile: Profile) -> bool {
    let head = || {
        let [check, size, ..] = sizes(form);
        let signals = 2 + check * count_at(octets, 0)?;
        let end = signals + 2 + size * count_at(octets, signals)?;
        List::of(&[octets.get(..end)?, &[0; 4]].concat(), form)
    };
    head().is_some_and(|list| {
        let signals = list.signals.iter();
        let by_itself = |s: &Signal| s.kind == 2 || s.check == 0 || s.limit == 0 || s.limit > LIMIT;
        let coaches = profile == Profile::PlainCoach;
        let any = signals
            .clone()
            .any(|s| by_itself(s) || coaches && s.kind == 1);
        any || signals.len() > SIGNALS
    })
}
