//! What a case of comparing two lists shows: what is told, by what it differs, what it breaks, what was passed over, and from where it was asked.

use crate::case::{Answer, Call, Case};
use crate::edited::{at, key};
use crate::list::{List, Signal};
use crate::reached::{each, Row};
use reference::{codes_gained, judge, Form};

/// Form 1 or 2 of both lists, as one number.
const FORMS: [u64; 4] = [11, 12, 21, 22];

/// What the three calls can show.
pub fn wanted(call: Call) -> Vec<Row> {
    let own = match call {
        Call::SignalChange => [wanted_of_signals(), wanted_from()].concat(),
        Call::RouteChange => [wanted_of_routes(), wanted_from()].concat(),
        _ => wanted_of_codes(),
    };
    let refused = [
        each("refused, forms", &FORMS),
        each("first refused", &[1, 2, 3, 4]),
        each("second refused", &[1, 2, 3, 4]),
        vec![("both refused", 0)],
    ];
    [own, refused.concat()].concat()
}

fn flags<const N: usize>(of: [&'static str; N]) -> Vec<Row> {
    of.map(|what| (what, 0)).to_vec()
}

/// From where it was asked, and what stands between.
fn wanted_from() -> Vec<Row> {
    let asked = flags([
        "asked from its key",
        "asked from the key before",
        "asked behind a difference",
        "none any more",
        "none, from above 32 bits",
        "none, the lists in other octets",
        "none, both empty",
        "passed over, one by another number",
    ]);
    [
        each("added, forms", &FORMS),
        each("removed, forms", &FORMS),
        each("changed, forms", &FORMS),
        each("none, forms", &FORMS),
        asked,
    ]
    .concat()
}

const FIELDS: [&str; 7] = [
    "changed by the width alone",
    "changed by the check place alone",
    "changed by the since-version alone",
    "changed by the limit alone",
    "changed by the replacement alone",
    "changed by codes gained alone",
    "changed by codes lost alone",
];

fn wanted_of_signals() -> Vec<Row> {
    let more = flags([
        "changed by codes gained and lost alone",
        "changed by several fields",
        "changed, from no check to one",
        "changed, from a check to none",
        "changed, a check by the same number",
        "changed, from all codes to some",
        "changed, from some codes to all",
        "added, newer by one",
        "added, of the version",
        "added to no signal",
        "removed, no signal left",
        "passed over, a check by another number",
        "passed over, a full range for no entry",
    ]);
    [
        flags(FIELDS),
        more,
        each("breaks", &[0, 1, 2, 3, 4, 5, 6]),
        each("breaks, and another rule too,", &[1, 2, 3]),
        each("added, type", &[0, 1, 2]),
        each("removed, type", &[0, 1, 2]),
        each("changed, type", &[0, 1, 2]),
        each("changed by codes, width", &[1, 16]),
        each("another width, to", &[15, 16, 17]),
    ]
    .concat()
}

fn wanted_of_routes() -> Vec<Row> {
    flags([
        "changed by the vehicle alone",
        "changed by the signal alone",
        "changed by both",
        "changed, a signal by the same number",
        "changed, a signal of another type at the same start",
        "passed over, its signal changed",
        "added to no route",
        "removed, no route left",
        "from bit 0",
        "to bit 2048",
    ])
}

fn wanted_of_codes() -> Vec<Row> {
    let ranges = flags([
        "a range",
        "from code 0",
        "to the top code",
        "to code 65535",
        "of one code",
        "of two codes",
        "of more codes",
        "between two known",
        "another behind it",
        "behind another",
        "asked from its first code",
        "asked from the code before",
        "asked inside the range before",
        "of a signal by another number",
    ]);
    let none = flags([
        "none, asked inside the last",
        "none, from above 32 bits",
        "none, in the first list alone",
        "none, in the second list alone",
        "none, in neither list",
        "none, a key of a signal once it is cut",
        "none, another width",
        "none, wider than 16",
        "none, the same codes",
        "none, a full range for no entry",
        "none, only lost",
    ]);
    [
        ranges,
        none,
        each("a range, forms", &FORMS),
        each("none, forms", &FORMS),
        each("a range, width", &[1, 2, 15, 16]),
    ]
    .concat()
}

/// What one answer shows.
pub fn rows(case: &Case, answer: &Answer) -> Vec<Row> {
    let compares = matches!(
        case.call,
        Call::SignalChange | Call::RouteChange | Call::CodesGained
    );
    if !compares {
        return vec![];
    }
    let [form, other] = [0, 1].map(|area| Form::of(case.form_at(area)) as u64);
    let forms = 10 * form + other;
    if answer.refusal != 0 {
        return refused_rows(case, answer.gives[1], forms);
    }
    let (Some(a), Some(b)) = (case.list_at(0), case.list_at(1)) else {
        return vec![];
    };
    let rows = match case.call {
        Call::SignalChange => signal_rows(case, &a, &b, answer, forms),
        Call::RouteChange => route_rows(case, &a, &b, answer, forms),
        _ => code_rows(case, &a, &b, answer, forms),
    };
    rows.into_iter()
        .filter_map(|(row, met)| met.then_some(row))
        .collect()
}

/// A row, and whether it was met.
type Met = (Row, bool);

fn met(what: &'static str, met: bool) -> Met {
    ((what, 0), met)
}

fn refused_rows(case: &Case, which: u64, forms: u64) -> Vec<Row> {
    let second = judge(&case.areas[1], Form::of(case.form_at(1)));
    let both = which == 1 && second.is_err();
    [("refused, forms", forms)]
        .into_iter()
        .chain(both.then_some(("both refused", 0)))
        .collect()
}

/// Each range of codes that the signal at a key has gained.
fn gained(a: &List, b: &List, key: u64) -> Vec<(u64, u64)> {
    let (old, new) = (a.octets(), b.octets());
    let (form, other) = (Form::of(a.form), Form::of(b.form));
    let mut ranges = vec![];
    let mut from = 0;
    while let Ok(Some(range)) = codes_gained(&old, form, &new, other, key, from) {
        ranges.push((range.low.into(), range.high.into()));
        from = u64::from(range.low) + 1;
    }
    ranges
}

/// Which of the fields differ of a signal that both lists have.
fn differing(a: &List, old: &Signal, b: &List, new: &Signal) -> Vec<&'static str> {
    let codes = [gained(a, b, key(old)), gained(b, a, key(old))];
    let differ = [
        old.width != new.width,
        a.place(old) != b.place(new),
        old.since != new.since,
        old.limit != new.limit,
        old.replacement != new.replacement,
        !codes[0].is_empty(),
        !codes[1].is_empty(),
    ];
    let fields = FIELDS.into_iter().zip(differ);
    fields
        .filter_map(|(field, is)| is.then_some(field))
        .collect()
}

/// Added, removed or changed; or nothing any more.
fn kind_of(answer: &Answer, [a, b]: [usize; 2], forms: u64) -> Row {
    let [found, _, _, first, second, _] = answer.gives[..6] else {
        return ("", 0);
    };
    let what = match (found, first == a as u64, second == b as u64) {
        (0, ..) => "none, forms",
        (_, true, _) => "added, forms",
        (_, _, true) => "removed, forms",
        _ => "changed, forms",
    };
    (what, forms)
}

/// From where it was asked; what stands at these keys differs, or not, and has these numbers in the lists.
fn from_rows(case: &Case, answer: &Answer, all: &[(u64, bool, [Option<usize>; 2])]) -> Vec<Met> {
    let (from, [found, _, key, ..]) = (case.numbers[2], answer.gives);
    let before = all.iter().any(|&(key, differs, _)| differs && key < from);
    let passed =
        |&&(at, differs, _): &&(u64, bool, _)| !differs && from <= at && (found == 0 || at < key);
    let renumbered = all.iter().filter(passed).any(|(.., [i, j])| i != j);
    let none = found == 0;
    let alike = none && !before;
    vec![
        met("asked from its key", !none && from == key && from != 0),
        met("asked from the key before", !none && from + 1 == key),
        met("asked behind a difference", !none && before),
        met("none any more", none && before),
        met("none, from above 32 bits", none && from >> 32 != 0),
        met("none, both empty", none && all.is_empty()),
        met(
            "none, the lists in other octets",
            alike && case.areas[0] != case.areas[1],
        ),
        met("passed over, one by another number", renumbered),
    ]
}

fn signal_rows(case: &Case, a: &List, b: &List, answer: &Answer, forms: u64) -> Vec<Met> {
    let mut keys: Vec<u64> = a.signals.iter().chain(&b.signals).map(key).collect();
    keys.sort_unstable();
    keys.dedup();
    let differs = |i: usize, j: usize| {
        let fields = differing(a, &a.signals[i], b, &b.signals[j]);
        !fields.is_empty()
    };
    let all: Vec<_> = keys
        .into_iter()
        .map(|key| match [at(a, key), at(b, key)] {
            [Some(i), Some(j)] => (key, differs(i, j), [Some(i), Some(j)]),
            alone => (key, true, alone),
        })
        .collect();
    let mut rows = from_rows(case, answer, &all);
    let [found, _, told, ..] = answer.gives;
    let kind = kind_of(answer, [a.signals.len(), b.signals.len()], forms);
    rows.push((kind, true));
    for &(key, differs, numbers) in &all {
        let passed = case.numbers[2] <= key && (found == 0 || key < told);
        if let ([Some(i), Some(j)], true) = (numbers, !differs && passed) {
            rows.extend(passed_rows(a, i, b, j));
        }
    }
    if found != 0 {
        rows.push((("breaks", answer.gives[5]), true));
        rows.extend(told_rows(a, b, answer));
    }
    rows
}

/// A signal that both lists have and that only looks as if it were changed.
fn passed_rows(a: &List, i: usize, b: &List, j: usize) -> Vec<Met> {
    let entries = |list: &List, number| list.codes_of(number).count();
    let renamed = a.signals[i].check != b.signals[j].check;
    vec![
        met("passed over, a check by another number", renamed),
        met(
            "passed over, a full range for no entry",
            entries(a, i) != entries(b, j),
        ),
    ]
}

/// The signal that is told.
fn told_rows(a: &List, b: &List, answer: &Answer) -> Vec<Met> {
    let [_, _, _, first, second, breaks] = answer.gives[..6] else {
        return vec![];
    };
    let (old, new) = (
        a.signals.get(first as usize),
        b.signals.get(second as usize),
    );
    match (old, new) {
        (Some(old), Some(new)) => changed_rows(a, old, b, new, breaks),
        (Some(old), None) => vec![
            (("removed, type", old.kind), true),
            met("removed, no signal left", b.signals.is_empty()),
        ],
        (None, Some(new)) => vec![
            (("added, type", new.kind), true),
            met("added, newer by one", new.since == a.version() + 1),
            met("added, of the version", new.since == a.version()),
            met("added to no signal", a.signals.is_empty()),
        ],
        (None, None) => vec![],
    }
}

fn changed_rows(a: &List, old: &Signal, b: &List, new: &Signal, breaks: u64) -> Vec<Met> {
    let fields = differing(a, old, b, new);
    let by = match fields[..] {
        [one] => one,
        [gained, lost] if [gained, lost] == FIELDS[5..] => "changed by codes gained and lost alone",
        _ => "changed by several fields",
    };
    let rules = [FIELDS[0], FIELDS[1], FIELDS[2], FIELDS[6]];
    let broken = rules.iter().filter(|rule| fields.contains(rule)).count();
    let coded = by.starts_with("changed by codes");
    let (place, other) = (a.place(old), b.place(new));
    let all = |list: &List, s| {
        let number = at(list, key(s)).unwrap_or(0);
        list.codes_of(number).next().is_none()
    };
    vec![
        (("changed, type", old.kind), true),
        met(by, true),
        (("breaks, and another rule too,", breaks), broken > 1),
        (("changed by codes, width", old.width), coded),
        (("another width, to", new.width), old.width != new.width),
        met(
            "changed, from no check to one",
            place.is_none() && other.is_some(),
        ),
        met(
            "changed, from a check to none",
            place.is_some() && other.is_none(),
        ),
        met(
            "changed, a check by the same number",
            old.check == new.check && place != other,
        ),
        met("changed, from all codes to some", coded && all(a, old)),
        met("changed, from some codes to all", coded && all(b, new)),
    ]
}

/// A vehicle, and a signal by type and start.
fn carried(list: &List, number: usize) -> Option<(u64, &Signal)> {
    let route = list.routes.get(number)?;
    Some((route.vehicle, &list.signals[route.signal as usize]))
}

fn route_rows(case: &Case, a: &List, b: &List, answer: &Answer, forms: u64) -> Vec<Met> {
    let starts =
        |list: &List| -> Vec<u64> { list.routes.iter().map(|route| route.start).collect() };
    let (old, new) = (starts(a), starts(b));
    let mut all: Vec<u64> = [&old[..], &new[..]].concat();
    all.sort_unstable();
    all.dedup();
    let number = |starts: &[u64], start| starts.iter().position(|&at| at == start);
    let what = |list, number| carried(list, number).map(|(vehicle, s)| (vehicle, key(s)));
    let all: Vec<_> = all
        .into_iter()
        .map(|start| match [number(&old, start), number(&new, start)] {
            [Some(i), Some(j)] => (start, what(a, i) != what(b, j), [Some(i), Some(j)]),
            alone => (start, true, alone),
        })
        .collect();
    let mut rows = from_rows(case, answer, &all);
    let [found, _, told, first, second, _] = answer.gives[..6] else {
        return rows;
    };
    let kind = kind_of(answer, [a.routes.len(), b.routes.len()], forms);
    rows.push((kind, true));
    for &(start, differs, numbers) in &all {
        let passed = case.numbers[2] <= start && (found == 0 || start < told);
        if let ([Some(i), Some(j)], true) = (numbers, !differs && passed) {
            let (old, new) = (carried(a, i), carried(b, j));
            let width = |of: Option<(u64, &Signal)>| of.map(|(_, s)| (s.width, s.limit));
            rows.push(met(
                "passed over, its signal changed",
                width(old) != width(new),
            ));
        }
    }
    if found != 0 {
        rows.extend(told_route_rows(a, first as usize, b, second as usize, told));
    }
    rows
}

/// The route that is told.
fn told_route_rows(a: &List, first: usize, b: &List, second: usize, start: u64) -> Vec<Met> {
    let (old, new) = (carried(a, first), carried(b, second));
    let end = old.or(new).map_or(0, |(_, s)| start + s.width);
    let mut rows = vec![
        met("from bit 0", start == 0),
        met("to bit 2048", end == 2_048),
        met("added to no route", a.routes.is_empty()),
        met("removed, no route left", b.routes.is_empty()),
    ];
    if let (Some((vehicle, s)), Some((other, t))) = (old, new) {
        let by = match (vehicle == other, key(s) == key(t)) {
            (false, true) => "changed by the vehicle alone",
            (true, _) => "changed by the signal alone",
            _ => "changed by both",
        };
        let number = |list: &List, route: usize| list.routes[route].signal;
        let same = number(a, first) == number(b, second) && key(s) != key(t);
        let retyped = s.start == t.start && s.kind != t.kind;
        rows.extend([
            met(by, true),
            met("changed, a signal by the same number", same),
            met(
                "changed, a signal of another type at the same start",
                retyped,
            ),
        ]);
    }
    rows
}

fn code_rows(case: &Case, a: &List, b: &List, answer: &Answer, forms: u64) -> Vec<Met> {
    let (wanted, from) = (case.numbers[2], case.numbers[3]);
    let [found, _, low, high, ..] = answer.gives;
    let ranges = gained(a, b, wanted);
    let inside = |&(low, high): &(u64, u64)| low < from && from <= high;
    if found == 0 {
        let mut rows = none_rows(a, b, wanted);
        rows.extend([
            (("none, forms", forms), true),
            met("none, asked inside the last", ranges.iter().any(inside)),
            met("none, from above 32 bits", from >> 32 != 0),
        ]);
        return rows;
    }
    let (i, j) = (at(a, wanted).unwrap_or(0), at(b, wanted).unwrap_or(0));
    let s = &a.signals[i];
    let behind = ranges.iter().any(|range| range.0 > high);
    let between = low > 0 && a.knows(i, low - 1) && high < s.top() && a.knows(i, high + 1);
    let many = match high - low {
        0 => "of one code",
        1 => "of two codes",
        _ => "of more codes",
    };
    vec![
        met("a range", true),
        (("a range, forms", forms), true),
        (("a range, width", s.width), true),
        met(many, true),
        met("from code 0", low == 0),
        met("to the top code", high == s.top()),
        met("to code 65535", high == 65_535),
        met("between two known", between),
        met("another behind it", behind),
        met("behind another", ranges.iter().any(|range| range.1 < low)),
        met("asked from its first code", from == low && low != 0),
        met("asked from the code before", from + 1 == low),
        met("asked inside the range before", ranges.iter().any(inside)),
        met("of a signal by another number", i != j),
    ]
}

/// Why there is no range at all, of a key.
fn none_rows(a: &List, b: &List, wanted: u64) -> Vec<Met> {
    let is_key = |key: u64| at(a, key).is_some() && at(b, key).is_some();
    let cut = [16, 32]
        .iter()
        .any(|bits| is_key(wanted & ((1 << bits) - 1)));
    match (at(a, wanted), at(b, wanted)) {
        (Some(_), None) => vec![met("none, in the first list alone", true)],
        (None, Some(_)) => vec![met("none, in the second list alone", true)],
        (None, None) => vec![
            met("none, in neither list", true),
            met("none, a key of a signal once it is cut", cut),
        ],
        (Some(i), Some(j)) => {
            let [width, other] = [a.signals[i].width, b.signals[j].width];
            let entries = [a.codes_of(i).count(), b.codes_of(j).count()];
            let [gained, lost] =
                [gained(a, b, wanted), gained(b, a, wanted)].map(|r| !r.is_empty());
            let same = !gained && !lost && width == other;
            vec![
                met("none, another width", width != other),
                met("none, wider than 16", width == other && width > 16),
                met("none, the same codes", same && entries == [1, 1]),
                met(
                    "none, a full range for no entry",
                    same && entries[0] != entries[1],
                ),
                met("none, only lost", lost && !gained),
            ]
        }
    }
}
