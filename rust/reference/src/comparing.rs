//! C-17, two lists compared: "in order of type and start, a line for each signal added, removed or changed", "known codes gained and lost
//! are given as ranges as long as possible", "Routes come last, by destination, their signals compared by type and start".

use std::collections::{BTreeMap, BTreeSet};

use crate::form::Form;
use crate::list::{knows, Code, CodeEntry, List, Route, Signal};
use crate::refusal::Refusal;

/// The list that was refused: "A refused list is reported by number and offset and nothing is compared."
#[derive(Debug, Clone, Copy, PartialEq, Eq)]
pub enum Refused {
    /// The first list.
    First(Refusal),
    /// The second list, and the first is good.
    Second(Refusal),
}

/// What the second list lacks to extend the first, by document 01's definition.
#[derive(Debug, Clone, Copy, PartialEq, Eq)]
pub enum Rule {
    /// "with equal type, start, width".
    Width = 1,
    /// "check place (or none)".
    Check = 2,
    /// "and since-version".
    Since = 3,
    /// "each code of it known under A is known under B".
    Codes = 4,
    /// "each signal of A stands in B".
    Removed = 5,
    /// "each signal only in B has a since-version above A's version".
    NotNewer = 6,
}

/// A signal or a route that was added, removed or changed.
#[derive(Debug, Clone, Copy, PartialEq, Eq)]
pub struct Change {
    /// What it is compared by: of a signal type * 1024 + start, of a route its destination.
    pub key: u64,
    /// Its number in the first list, from 0; where that has none, the number of them all.
    pub first: u64,
    /// Its number in the second list, likewise.
    pub second: u64,
    /// The first rule of extending that it breaks; a route breaks none.
    pub breaks: Option<Rule>,
}

/// Codes from one to another, both among them.
#[derive(Debug, Clone, Copy, PartialEq, Eq)]
pub struct CodeRange {
    /// The lowest.
    pub low: u16,
    /// The highest.
    pub high: u16,
}

/// The numbers of a list's entries, by what they are compared by.
type Numbers = BTreeMap<u64, usize>;

/// The next signal, at the key `from` or above, that was "added, removed or changed".
pub fn signal_change(
    a: &[u8],
    form: Form,
    b: &[u8],
    other: Form,
    from: u64,
) -> Result<Option<Change>, Refused> {
    let [a, b] = judged(a, form, b, other)?;
    let numbers = [signals_of(&a), signals_of(&b)];
    let changed = |first, second| is_changed(&a, first, &b, second);
    let breaks = |first, second| broken(&a, first, &b, second);
    Ok(
        next(numbers, from, changed).map(|(key, [first, second])| Change {
            key,
            first: first.unwrap_or(a.signals.len()) as u64,
            second: second.unwrap_or(b.signals.len()) as u64,
            breaks: breaks(first, second),
        }),
    )
}

/// The next destination, at the bit `from` or above, whose route was added, removed or changed: comes from another vehicle, or carries
/// another signal "by type and start".
pub fn route_change(
    a: &[u8],
    form: Form,
    b: &[u8],
    other: Form,
    from: u64,
) -> Result<Option<Change>, Refused> {
    let [a, b] = judged(a, form, b, other)?;
    let numbers = [routes_of(&a), routes_of(&b)];
    let changed = |first, second| carried(&a, first) != carried(&b, second);
    Ok(
        next(numbers, from, changed).map(|(key, [first, second])| Change {
            key,
            first: first.unwrap_or(a.routes.len()) as u64,
            second: second.unwrap_or(b.routes.len()) as u64,
            breaks: None,
        }),
    )
}

/// Of the signal at a key that both lists have: the next of the ranges "as long as possible" of codes that are known under `b` and not under
/// `a`, which starts at the code `from` or above. The lists exchanged, it gives those that were lost.
pub fn codes_gained(
    a: &[u8],
    form: Form,
    b: &[u8],
    other: Form,
    key: u64,
    from: u64,
) -> Result<Option<CodeRange>, Refused> {
    let [a, b] = judged(a, form, b, other)?;
    let [first, second] = [&a, &b].map(|list| signals_of(list).get(&key).copied());
    let (Some(first), Some(second)) = (first, second) else {
        return Ok(None);
    };
    let mut ranges = gained(&a, first, &b, second).into_iter();
    Ok(ranges.find(|range| u64::from(range.low) >= from))
}

/// "of two lists, the first is judged first".
fn judged<'a>(a: &'a [u8], form: Form, b: &'a [u8], other: Form) -> Result<[List<'a>; 2], Refused> {
    let a = List::judged(a, form).map_err(Refused::First)?;
    let b = List::judged(b, other).map_err(Refused::Second)?;
    Ok([a, b])
}

/// "in order of type and start": a start is below 1024.
fn key(signal: Signal) -> u64 {
    1024 * u64::from(signal.kind()) + u64::from(signal.start())
}

fn signals_of(list: &List) -> Numbers {
    let keys = list.signals.iter().map(Signal::of).map(key);
    keys.zip(0..).collect()
}

fn routes_of(list: &List) -> Numbers {
    let starts = list.routes.iter().map(|entry| Route::of(entry).start);
    starts.map(u64::from).zip(0..).collect()
}

/// The first key, `from` or above, that one list has alone or both have with a change between them, and the numbers there.
fn next(
    [a, b]: [Numbers; 2],
    from: u64,
    changed: impl Fn(usize, usize) -> bool,
) -> Option<(u64, [Option<usize>; 2])> {
    let keys: BTreeSet<u64> = a.keys().chain(b.keys()).copied().collect();
    let there = keys.range(from..).map(|key| {
        let numbers = [&a, &b].map(|numbers| numbers.get(key).copied());
        (*key, numbers)
    });
    let mut differences = there.filter(|&(_, numbers)| match numbers {
        [Some(first), Some(second)] => changed(first, second),
        _ => true,
    });
    differences.next()
}

/// Whether a signal of both lists has a "differing field", where "a check is compared by place, not index", or has gained or lost a code.
fn is_changed(a: &List, first: usize, b: &List, second: usize) -> bool {
    let fields = |list: &List, number: usize| {
        let signal = list.signals.at(number);
        (
            signal.width(),
            list.check_place(signal),
            signal.since(),
            signal.limit(),
            signal.replacement(),
        )
    };
    fields(a, first) != fields(b, second)
        || !gained(a, first, b, second).is_empty()
        || !gained(b, second, a, first).is_empty()
}

/// The first rule that stands between the lists and "B extends A", of what stands at one key.
fn broken(a: &List, first: Option<usize>, b: &List, second: Option<usize>) -> Option<Rule> {
    let (first, second) = match (first, second) {
        (Some(first), Some(second)) => (first, second),
        (None, Some(second)) => {
            let newer = b.signals.at(second).since() > a.version;
            return (!newer).then_some(Rule::NotNewer);
        }
        (_, None) => return Some(Rule::Removed),
    };
    let (old, new) = (a.signals.at(first), b.signals.at(second));
    let rules = [
        (Rule::Width, old.width() != new.width()),
        (Rule::Check, a.check_place(old) != b.check_place(new)),
        (Rule::Since, old.since() != new.since()),
        (Rule::Codes, !gained(b, second, a, first).is_empty()),
    ];
    let mut broken = rules.into_iter().filter(|&(_, is_broken)| is_broken);
    broken.next().map(|(rule, _)| rule)
}

/// What a route carries: from which vehicle, and which signal.
fn carried(list: &List, number: usize) -> (u8, u64) {
    let route = Route::of(&list.routes[number]);
    let signal = list.signals.at(usize::from(route.signal));
    (route.vehicle, key(signal))
}

/// The codes that a signal of both lists knows under `b` and not under `a`: "Where widths are equal and at most 16".
fn gained(a: &List, first: usize, b: &List, second: usize) -> Vec<CodeRange> {
    let [width, other] = [a.signals.at(first), b.signals.at(second)].map(Signal::width);
    match width == other && width <= 16 {
        true => ranges_between(a.codes_of(first), b.codes_of(second), width),
        false => vec![],
    }
}

/// The codes below 2^width that are known by the second entries and not by the first, in "ranges as long as possible". From one edge of an
/// entry to the next all codes are known alike.
fn ranges_between(old: &[CodeEntry], new: &[CodeEntry], width: u8) -> Vec<CodeRange> {
    let mut ranges: Vec<CodeRange> = vec![];
    // The same entries, by whatever number of the signal, need no look at each code.
    let range = |code: &CodeEntry| (Code::of(code).low, Code::of(code).high);
    if old.iter().map(range).eq(new.iter().map(range)) {
        return ranges;
    }
    let codes = old.iter().chain(new).map(range);
    let edges = codes.flat_map(|(low, high)| [u32::from(low), u32::from(high) + 1]);
    let mut edges: Vec<u32> = edges.chain([0, 1 << width]).collect();
    edges.sort_unstable();
    edges.dedup();
    for alike in edges.windows(2) {
        let (low, high) = (alike[0], (alike[1] - 1) as u16);
        if !knows(new, low.into()) || knows(old, low.into()) {
            continue;
        }
        match ranges.last_mut() {
            Some(range) if u32::from(range.high) + 1 == low => range.high = high,
            _ => ranges.push(CodeRange {
                low: low as u16,
                high,
            }),
        }
    }
    ranges
}
