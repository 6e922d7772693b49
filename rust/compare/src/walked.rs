//! C-17, two lists compared whole, as the tool prints them: every signal that differs, with the codes that it gained and lost, then every route.
//! Held to the lists with all left out that does not count: two lists are the same exactly where these are, and the codes of one are those of the
//! other with the gained ones and without the lost ones. The second extends the first exactly if no difference breaks a rule.

use std::collections::{BTreeMap, BTreeSet};
use std::fmt;

use crate::case::{Call, Case};
use crate::edited::{self, at, key, Of};
use crate::list::List;
use crate::make;
use crate::memory::on_heap;
use crate::random::Random;
use crate::sides::{by_header, by_reference, by_wrappers, Side};

/// What the pairs of a seed must meet.
const NAMES: [&str; 15] = [
    "no difference",
    "no difference, other octets",
    "one difference",
    "several signals",
    "signals, codes and routes",
    "routes alone",
    "codes gained",
    "codes lost",
    "several ranges of a signal",
    "extends, with differences",
    "does not extend, by the last alone",
    "does not extend, by added alone",
    "256 signals",
    "the most routes",
    "both lists empty",
];

/// How often each was met, and how many differences and ranges there were in all.
pub struct Met {
    names: BTreeMap<&'static str, u64>,
    pub pairs: u64,
    pub differences: u64,
}

/// A signal or a route that differs: its key, its numbers in both lists, and what it breaks.
type Difference = [u64; 4];
type Ranges = Vec<(u64, u64)>;

/// All that differs, in the order in which it is told.
#[derive(Debug, PartialEq)]
struct Told {
    /// Each with the ranges gained and lost.
    signals: Vec<(Difference, [Ranges; 2])>,
    routes: Vec<Difference>,
    extends: bool,
}

/// A signal with nothing in it that does not count: width, place of the check, since-version, limit, replacement, known codes.
type Plain = ([u64; 5], Ranges);

/// The known codes of a signal; where it knows all, one range, or what no signal of more than 16 bits has.
fn known(list: &List, number: usize) -> Ranges {
    let ranges: Ranges = list.codes_of(number).map(|c| (c.low, c.high)).collect();
    match ranges.is_empty() {
        true => vec![(0, list.signals[number].top())],
        false => ranges,
    }
}

fn plain_signals(list: &List) -> BTreeMap<u64, Plain> {
    let signals = list.signals.iter().enumerate();
    let plain = signals.map(|(number, s)| {
        let place = list.place(s).unwrap_or(0);
        let fields = [s.width, place, s.since, s.limit, s.replacement];
        (key(s), (fields, known(list, number)))
    });
    plain.collect()
}

/// The vehicle and the signal that a destination has.
fn plain_routes(list: &List) -> BTreeMap<u64, [u64; 2]> {
    let routes = list.routes.iter();
    let plain = routes.map(|route| {
        let signal = &list.signals[route.signal as usize];
        (route.start, [route.vehicle, key(signal)])
    });
    plain.collect()
}

/// The keys at which two tables do not have the same.
fn apart<T: PartialEq>(a: &BTreeMap<u64, T>, b: &BTreeMap<u64, T>) -> Vec<u64> {
    let keys: BTreeSet<&u64> = a.keys().chain(b.keys()).collect();
    let keys = keys.into_iter().filter(|key| a.get(key) != b.get(key));
    keys.copied().collect()
}

/// One library, and the octets of two lists that it is asked about, each with its form.
struct Walk {
    side: Side,
    lists: [(Vec<u8>, u64); 2],
}

impl Walk {
    fn new(side: Side, lists: [&List; 2]) -> Self {
        let lists = lists.map(|list| (list.octets(), list.form));
        Walk { side, lists }
    }

    /// What a call gives of the two lists, or of the two exchanged.
    fn ask(&self, call: Call, exchanged: bool, numbers: &[u64]) -> Result<[u64; 8], String> {
        let mut lists = self.lists.clone();
        if exchanged {
            lists.reverse();
        }
        let (areas, forms): (Vec<_>, Vec<u64>) = lists.into_iter().unzip();
        let numbers = [&forms, numbers].concat();
        let answer = on_heap(self.side, &Case::new(call, areas, numbers)).answer;
        match answer.refusal {
            0 => Ok(answer.gives),
            _ => Err(format!("{}, {answer}", call.parameters().name)),
        }
    }

    /// All that a call gives, each time asked from the key behind what it gave before.
    fn all(&self, call: Call, exchanged: bool, of: &[u64]) -> Result<Vec<[u64; 8]>, String> {
        let mut all = vec![];
        let mut from = 0;
        loop {
            let gives = self.ask(call, exchanged, &[of, &[from]].concat())?;
            let [found, _, key, ..] = gives;
            if found == 0 {
                return Ok(all);
            }
            if key < from {
                return Err(format!(
                    "{} from {from} gives {key}",
                    call.parameters().name
                ));
            }
            from = key + 1;
            all.push(gives);
        }
    }

    fn differences(&self, call: Call) -> Result<Vec<Difference>, String> {
        let all = self.all(call, false, &[])?.into_iter();
        Ok(all
            .map(|[_, _, key, first, second, breaks, ..]| [key, first, second, breaks])
            .collect())
    }

    fn ranges(&self, exchanged: bool, key: u64) -> Result<Ranges, String> {
        let all = self.all(Call::CodesGained, exchanged, &[key])?.into_iter();
        Ok(all.map(|[_, _, low, high, ..]| (low, high)).collect())
    }

    fn told(&self) -> Result<Told, String> {
        let signals = self.differences(Call::SignalChange)?.into_iter();
        let signals = signals.map(|difference| {
            let ranges = [
                self.ranges(false, difference[0])?,
                self.ranges(true, difference[0])?,
            ];
            Ok((difference, ranges))
        });
        let [extends, ..] = self.ask(Call::Extends, false, &[])?;
        Ok(Told {
            signals: signals.collect::<Result<_, String>>()?,
            routes: self.differences(Call::RouteChange)?,
            extends: extends == 1,
        })
    }
}

/// Holds what is told to the lists.
fn held(told: &Told, [a, b]: [&List; 2]) -> Result<(), String> {
    let (old, new) = (plain_signals(a), plain_signals(b));
    let signals = told.signals.iter().map(|(difference, _)| difference[0]);
    if signals.collect::<Vec<u64>>() != apart(&old, &new) {
        return Err(format!("not the signals at {:?}", apart(&old, &new)));
    }
    let routes = told.routes.iter().map(|difference| difference[0]);
    let wanted = apart(&plain_routes(a), &plain_routes(b));
    if routes.collect::<Vec<u64>>() != wanted {
        return Err(format!("not the routes at {wanted:?}"));
    }
    for (difference, ranges) in &told.signals {
        let key = difference[0];
        let all = [a.signals.len(), b.signals.len()];
        let breaks = broken([old.get(&key), new.get(&key)], ranges, a.version());
        numbered(difference, [at(a, key), at(b, key)], all, breaks)?;
        ranged(key, ranges, [a, b])?;
    }
    for difference in &told.routes {
        let number = |list: &List| list.routes.iter().position(|r| r.start == difference[0]);
        let all = [a.routes.len(), b.routes.len()];
        numbered(difference, [number(a), number(b)], all, 0)?;
    }
    let breaks = told
        .signals
        .iter()
        .any(|(difference, _)| difference[3] != 0);
    match told.extends == breaks {
        true => Err("what is broken is not what extending says".to_string()),
        false => Ok(()),
    }
}

/// The first rule of extending that a difference breaks.
fn broken(of: [Option<&Plain>; 2], [_, lost]: &[Ranges; 2], version: u64) -> u64 {
    match of {
        [Some((old, _)), Some((new, _))] => {
            let same = old.iter().zip(new).map(|(old, new)| old == new);
            match same.take(3).position(|same| !same) {
                Some(field) => field as u64 + 1,
                None if lost.is_empty() => 0,
                None => 4,
            }
        }
        [Some(_), None] => 5,
        [None, Some(([_, _, since, ..], _))] if *since > version => 0,
        _ => 6,
    }
}

/// The numbers of what differs, or of all that there are; and what it breaks.
fn numbered(
    told: &Difference,
    numbers: [Option<usize>; 2],
    all: [usize; 2],
    breaks: u64,
) -> Result<(), String> {
    let [first, second] = [0, 1].map(|list| numbers[list].unwrap_or(all[list]) as u64);
    let wanted = [told[0], first, second, breaks];
    match *told == wanted {
        true => Ok(()),
        false => Err(format!("{told:?}, where it is {wanted:?}")),
    }
}

/// The codes of the one list with the gained ones and without the lost ones are those of the other: at each end of a range and beside it, since
/// between two ends codes are known alike. And no range goes on where it is said to end.
fn ranged(key: u64, [gained, lost]: &[Ranges; 2], [a, b]: [&List; 2]) -> Result<(), String> {
    let comparable = match (at(a, key), at(b, key)) {
        (Some(i), Some(j)) => {
            let [width, other] = [a.signals[i].width, b.signals[j].width];
            (width == other && width <= 16).then_some((i, j))
        }
        _ => None,
    };
    let Some((i, j)) = comparable else {
        return match gained.is_empty() && lost.is_empty() {
            true => Ok(()),
            false => Err(format!("codes of the signal at {key}")),
        };
    };
    let apart = |ranges: &Ranges| ranges.is_sorted_by(|a, b| a.1 + 1 < b.0);
    if !apart(gained) || !apart(lost) {
        return Err(format!("ranges of the signal at {key} that touch"));
    }
    let top = a.signals[i].top();
    let told = |ranges: &Ranges, code| {
        ranges
            .iter()
            .any(|&(low, high)| (low..=high).contains(&code))
    };
    let ranges = [known(a, i), known(b, j), gained.clone(), lost.clone()].concat();
    let ends = ranges
        .into_iter()
        .flat_map(|(low, high)| [low.saturating_sub(1), low, high, high + 1]);
    for code in ends.filter(|&code| code <= top) {
        let (old, new) = (a.knows(i, code), b.knows(j, code));
        if told(gained, code) != (new && !old) || told(lost, code) != (old && !new) {
            return Err(format!("code {code} of the signal at {key}"));
        }
    }
    let within = |ranges: &Ranges| ranges.iter().all(|range| range.1 <= top);
    match within(gained) && within(lost) {
        true => Ok(()),
        false => Err(format!("codes past the top of the signal at {key}")),
    }
}

impl Met {
    fn new() -> Self {
        Met {
            names: NAMES.map(|name| (name, 0)).into(),
            pairs: 0,
            differences: 0,
        }
    }

    fn count(&mut self, told: &Told, [a, b]: [&List; 2]) {
        let (signals, routes) = (&told.signals, told.routes.len());
        let all = signals.len() + routes;
        let any = |of: fn(&[Ranges; 2]) -> bool| signals.iter().any(|(_, ranges)| of(ranges));
        let gained = any(|ranges| !ranges[0].is_empty());
        let lost = any(|ranges| !ranges[1].is_empty());
        let broken = |&&([.., breaks], _): &&(Difference, [Ranges; 2])| breaks != 0;
        let bad: Vec<u64> = signals.iter().filter(broken).map(|(d, _)| d[3]).collect();
        let last = signals.last().is_some_and(|(d, _)| d[3] != 0);
        let plain = |list: &List| {
            List {
                form: 1,
                ..list.clone()
            }
            .octets()
        };
        let met = [
            all == 0,
            all == 0 && plain(a) != plain(b),
            all == 1,
            signals.len() > 1,
            signals.len() > 1 && (gained || lost) && routes > 1,
            signals.is_empty() && routes > 0,
            gained,
            lost,
            any(|ranges| ranges.iter().any(|ranges| ranges.len() > 1)),
            told.extends && !signals.is_empty(),
            bad.len() == 1 && last && signals.len() > 1,
            !bad.is_empty() && bad.iter().all(|&breaks| breaks == 6),
            a.signals.len() == 256 || b.signals.len() == 256,
            a.routes.len() == 512 || b.routes.len() == 512,
            a.signals.is_empty() && b.signals.is_empty(),
        ];
        for (name, met) in NAMES.into_iter().zip(met) {
            *self.names.entry(name).or_default() += u64::from(met);
        }
        self.pairs += 1;
        self.differences += all as u64;
    }

    pub fn faults(&self) -> Vec<String> {
        let missing = self.names.iter().filter(|(_, &count)| count == 0);
        missing
            .map(|(name, _)| format!("UNREACHED: walked, {name}"))
            .collect()
    }
}

impl fmt::Display for Met {
    fn fmt(&self, f: &mut fmt::Formatter) -> fmt::Result {
        let said = NAMES.map(|name| format!("{name}: {}", self.names[name]));
        writeln!(f, "{:15}{}", "walked", said.join(", "))
    }
}

/// A pair to be walked; now and then of the longest lists.
fn pair(r: &Random) -> [List; 2] {
    let of = r.of(&[Of::Signals, Of::Codes, Of::Routes]);
    match r.one_in(500) {
        true => edited::lists_from(r, make::longest(r), of),
        false => edited::lists(r, of),
    }
}

/// One pair by both libraries, by the proved one in each pair of forms.
fn walked([a, b]: &[List; 2], met: &mut Met) -> Result<(), String> {
    let told = Walk::new(by_reference, [a, b]).told()?;
    held(&told, [a, b])?;
    met.count(&told, [a, b]);
    let in_form = |list: &List, form| List {
        form,
        ..list.clone()
    };
    for (form, other) in [(1, 1), (1, 2), (2, 1), (2, 2)] {
        let side = if form == other {
            by_header
        } else {
            by_wrappers
        };
        let given = Walk::new(side, [&in_form(a, form), &in_form(b, other)]).told()?;
        if given != told {
            return Err(format!(
                "in forms {form} and {other} the library tells {given:?}, the reference {told:?}"
            ));
        }
    }
    Ok(())
}

/// So many pairs of a seed; what they met, or where the first went wrong.
pub fn all(pairs: u64, seed: u64) -> Result<Met, String> {
    let mut met = Met::new();
    for number in 0..pairs {
        // Numbers that no case of the seed has, and no sequence by the true clock, and no trip.
        let r = Random::of_case(seed, u64::MAX / 4 - number);
        walked(&pair(&r), &mut met)
            .map_err(|why| format!("pair {number} of seed {seed}: {why}"))?;
    }
    Ok(met)
}

#[cfg(test)]
mod tests {
    use super::*;

    /// A way of telling something else, where there is something to tell.
    type Slip = fn(&mut Told) -> Option<()>;

    const SLIPS: [(&str, Slip); 9] = [
        ("a signal left out", |told| told.signals.pop().map(drop)),
        ("a route left out", |told| told.routes.pop().map(drop)),
        ("a signal told twice", |told| {
            let last = told.signals.last()?;
            told.signals.push((last.0, last.1.clone()));
            Some(())
        }),
        ("another number", |told| {
            told.signals.first_mut()?.0[2] += 1;
            Some(())
        }),
        ("another rule", |told| {
            told.signals.last_mut()?.0[3] ^= 1;
            Some(())
        }),
        ("a route that breaks a rule", |told| {
            told.routes.first_mut()?[3] = 5;
            Some(())
        }),
        ("gained and lost exchanged", |told| {
            let (_, ranges) = told.signals.iter_mut().find(|(_, of)| of[0] != of[1])?;
            ranges.reverse();
            Some(())
        }),
        ("a range in two", |told| {
            let ranges = told.signals.iter_mut().flat_map(|(_, of)| &mut of[0]);
            let (low, high) = ranges.last().copied().filter(|(low, high)| low < high)?;
            let (_, of) = told.signals.iter_mut().rfind(|(_, of)| !of[0].is_empty())?;
            of[0].pop();
            of[0].extend([(low, low), (low + 1, high)]);
            Some(())
        }),
        ("a range less a code", |told| {
            let mut ranges = told.signals.iter_mut().flat_map(|(_, of)| &mut of[1]);
            ranges.find(|range| range.0 < range.1)?.1 -= 1;
            Some(())
        }),
    ];

    /// What is told is as it must be, and whatever else were told is noticed.
    #[test]
    fn every_slip_is_noticed() {
        let mut made = [0; SLIPS.len()];
        for number in 0..1_500 {
            let [a, b] = pair(&Random::of_case(17, number));
            let told = || Walk::new(by_reference, [&a, &b]).told();
            assert_eq!(told().and_then(|told| held(&told, [&a, &b])), Ok(()));
            for (made, (name, slip)) in made.iter_mut().zip(SLIPS) {
                let Ok(mut other) = told() else { continue };
                if slip(&mut other).is_some() {
                    *made += 1;
                    assert!(held(&other, [&a, &b]).is_err(), "{name}: {other:?}");
                }
            }
        }
        assert!(made.iter().all(|&made| made > 20), "{made:?}");
    }
}
