//! C-24, an old gateway in the middle: a telegram is composed under list C, relayed under list A, which C extends, and read under C. "for each
//! signal of A that the type carries, the last reader gives the value first written or its own replacement with reason 6. Its reading is live
//! exactly if every signal of A that the type carries under that check was live in the middle. For signals only in C it gives reason 4 or 5."

use std::collections::BTreeMap;
use std::fmt;

use crate::case::{Call, Case};
use crate::list::{List, Signal};
use crate::memory::{on_heap, After};
use crate::random::Random;
use crate::sides::{by_reference, by_wrappers, Side};
use crate::{make, pair, store};
use reference::STORE;

/// What the trips of a seed must meet.
const NAMES: [&str; 18] = [
    "type R1",
    "type R2",
    "type R3",
    "live ok",
    "live forced",
    "live at A's limit",
    "live at C's limit",
    "error",
    "undefined",
    "not known in the middle",
    "lost with another",
    "lost, A and C replace it differently",
    "of A, not carried",
    "only in C, not carried",
    "only in C, carried",
    "only in C, beside a live one",
    "a sweep between",
    "another vehicle's telegram between",
];

pub struct Met(BTreeMap<&'static str, u64>);

/// A value and its reason.
type Reading = (u64, u64);

/// One who takes a telegram and later reads it under a list. Meanwhile the store may be swept, and another vehicle heard.
struct Reader {
    list: List,
    store: Vec<u8>,
    vehicle: u64,
    taken: u32,
    /// How old the telegram is when it is read.
    age: u32,
    /// And when the store is swept.
    swept: Option<u32>,
    other: Option<(u64, Vec<u8>)>,
}

/// The lists of its readers are A and C.
struct Trip {
    middle: Reader,
    last: Reader,
    kind: u64,
    /// What is first written: one value for each signal of C, one mark for each check.
    values: Vec<u64>,
    marks: Vec<u8>,
}

/// What a call leaves; none of these may be refused.
fn done(side: Side, case: &Case) -> Result<After, String> {
    let after = on_heap(side, case);
    match after.answer.refusal {
        0 => Ok(after),
        _ => Err(format!("{}, {}", case.call.parameters().name, after.answer)),
    }
}

/// The area that a call wrote.
pub fn written(side: Side, case: &Case) -> Result<Vec<u8>, String> {
    let at = case.call.parameters().written.unwrap_or(0);
    Ok(done(side, case)?.areas.swap_remove(at))
}

/// "every signal of A has a check; every replacement in A is a code known to A".
fn old_list(r: &Random) -> List {
    let mut list = make::list_to_relay(r);
    for number in (0..list.signals.len()).rev() {
        if list.signals[number].check == 0 {
            list.remove_signal(number);
        }
    }
    make::know_replacements(r, &mut list);
    list
}

impl Reader {
    /// "within each reader's limits", and its slot not expired.
    fn new(r: &Random, list: List) -> Self {
        let limits = list.signals.iter().map(|s| s.limit as u32);
        let age = match limits.filter(|&limit| limit != 0).min() {
            Some(least) => r.of(&[0, least, r.below(u64::from(least) + 1) as u32]),
            None => store::clock(r),
        };
        let kind = r.within(1, 3);
        Reader {
            store: match r.one_in(2) {
                true => r.octets(STORE),
                false => vec![0; STORE],
            },
            vehicle: r.of(&[1, 2, 62, 63]),
            taken: store::clock(r),
            age,
            swept: r.one_in(3).then(|| r.of(&[0, age]).min(600_000)),
            other: r
                .one_in(3)
                .then(|| (r.of(&[3, 61]), store::telegram(r, &list, kind))),
            list,
        }
    }

    fn clock(&self, age: u32) -> u64 {
        self.taken.wrapping_add(age).into()
    }

    /// The store when it is read.
    fn hear(&self, side: Side, telegram: Vec<u8>) -> Result<Vec<u8>, String> {
        let take = |store, vehicle, clock, telegram| {
            let case = Case::new(Call::Take, vec![store, telegram], vec![vehicle, clock]);
            written(side, &case)
        };
        let mut store = take(self.store.clone(), self.vehicle, self.clock(0), telegram)?;
        if let Some(age) = self.swept {
            let case = Case::new(Call::Sweep, vec![store], vec![self.clock(age)]);
            store = written(side, &case)?;
        }
        if let Some((vehicle, other)) = self.other.clone() {
            store = take(store, vehicle, self.clock(self.age), other)?;
        }
        Ok(store)
    }

    /// Every signal of the list, in its order.
    fn read(&self, side: Side, store: &[u8]) -> Result<Vec<Reading>, String> {
        let mut case = Case::new(
            Call::Read,
            vec![self.list.octets(), store.to_vec()],
            vec![self.list.form, self.clock(self.age), self.vehicle, 0],
        );
        let signals = 0..self.list.signals.len() as u64;
        let read = signals.map(|signal| {
            case.numbers[3] = signal;
            let [value, reason, ..] = done(side, &case)?.answer.gives;
            Ok((value, reason))
        });
        read.collect()
    }
}

impl Trip {
    fn new(r: &Random) -> Self {
        let a = old_list(r);
        let c = pair::extension(r, &a);
        Trip::under(r, a, c)
    }

    fn under(r: &Random, a: List, c: List) -> Self {
        let signals = 0..c.signals.len();
        Trip {
            kind: store::kind(r, &a),
            values: signals.map(|s| store::known_value(r, &c, s)).collect(),
            marks: c.checks.iter().map(|_| store::mark(r) as u8).collect(),
            middle: Reader::new(r, a),
            last: Reader::new(r, c),
        }
    }

    fn output(&self) -> Vec<u8> {
        vec![0xEE; if self.kind == 3 { 40 } else { 128 }]
    }

    /// "the first telegram was composed under C".
    fn composed(&self, side: Side) -> Result<Vec<u8>, String> {
        let c = &self.last.list;
        let areas = vec![c.octets(), self.marks.clone(), self.output()];
        let mut case = Case::new(Call::Compose, areas, vec![c.form, self.kind]);
        case.values = self.values.clone();
        written(side, &case)
    }

    fn relayed(&self, side: Side, store: &[u8]) -> Result<Vec<u8>, String> {
        let middle = &self.middle;
        let areas = vec![middle.list.octets(), store.to_vec(), self.output()];
        let clock = middle.clock(middle.age);
        let numbers = vec![middle.list.form, clock, middle.vehicle];
        written(side, &Case::new(Call::Relay, areas, numbers))
    }

    fn run(&self, side: Side, met: &mut Met) -> Result<(), String> {
        let store = self.middle.hear(side, self.composed(side)?)?;
        let between = self.middle.read(side, &store)?;
        let telegram = self.relayed(side, &store)?;
        let store = self.last.hear(side, telegram)?;
        for (number, reading) in self.last.read(side, &store)?.into_iter().enumerate() {
            let wanted = self.wanted(number, &between);
            if reading != wanted {
                return Err(format!(
                    "signal {number} of C: value and reason {reading:?}, not {wanted:?}"
                ));
            }
            self.count(number, &between, wanted.1, met);
        }
        self.count_trip(met);
        Ok(())
    }

    /// The number that a signal of C has in A.
    fn in_a(&self, signal: &Signal) -> Option<usize> {
        let mut of_a = self.middle.list.signals.iter();
        of_a.position(|s| (s.kind, s.start) == (signal.kind, signal.start))
    }

    /// Whether A has signals under this place that the type carries, and every one was live in the middle.
    fn is_vouched(&self, place: u64, between: &[Reading]) -> bool {
        let a = &self.middle.list;
        let here = |s: &Signal| s.carried_by(self.kind) && a.place(s) == Some(place);
        let under = a.signals.iter().zip(between).filter(|(s, _)| here(s));
        let mut reasons = under.map(|(_, &(_, reason))| reason).peekable();
        reasons.peek().is_some() && reasons.all(|reason| reason <= 1)
    }

    /// What the last reader must give of a signal of C.
    fn wanted(&self, number: usize, between: &[Reading]) -> Reading {
        let c = &self.last.list;
        let s = &c.signals[number];
        match (self.in_a(s), c.place(s)) {
            _ if !s.carried_by(self.kind) => (s.replacement, 4),
            (None, _) => (s.replacement, 5),
            (Some(_), Some(place)) if self.is_vouched(place, between) => {
                let mark = self.marks[s.check as usize - 1];
                (self.values[number], u64::from(mark).wrapping_sub(1))
            }
            (Some(_), _) => (s.replacement, 6),
        }
    }

    fn count(&self, number: usize, between: &[Reading], reason: u64, met: &mut Met) {
        let (a, c) = (&self.middle.list, &self.last.list);
        let s = &c.signals[number];
        let Some(in_a) = self.in_a(s) else {
            let live = c
                .place(s)
                .is_some_and(|place| self.is_vouched(place, between));
            met.count("only in C, not carried", reason == 4);
            met.count("only in C, carried", reason == 5);
            met.count("only in C, beside a live one", reason == 5 && live);
            return;
        };
        let (old, lost) = (&a.signals[in_a], between[in_a].1);
        let (live, replaced) = (reason <= 1, reason == 6);
        met.count("of A, not carried", reason == 4);
        met.count("live ok", reason == 0);
        met.count("live forced", reason == 1);
        let (at_a, at_c) = (self.middle.age as u64, self.last.age as u64);
        met.count("live at A's limit", live && at_a == old.limit);
        met.count("live at C's limit", live && at_c == s.limit);
        met.count("error", replaced && lost == 6);
        met.count("undefined", replaced && lost == 7);
        met.count("not known in the middle", replaced && lost == 8);
        met.count("lost with another", replaced && lost <= 1);
        let differ = old.replacement != s.replacement;
        met.count("lost, A and C replace it differently", replaced && differ);
    }

    fn count_trip(&self, met: &mut Met) {
        let types = ["type R1", "type R2", "type R3"];
        met.count(types[self.kind as usize - 1], true);
        for reader in [&self.middle, &self.last] {
            met.count("a sweep between", reader.swept.is_some());
            met.count("another vehicle's telegram between", reader.other.is_some());
        }
    }
}

impl Met {
    fn new() -> Self {
        Met(NAMES.map(|name| (name, 0)).into())
    }

    fn count(&mut self, name: &'static str, met: bool) {
        *self.0.entry(name).or_default() += u64::from(met);
    }

    /// How many readings of signals of A that the type carries were as they must be.
    pub fn readings(&self) -> u64 {
        let of = [
            "live ok",
            "live forced",
            "error",
            "undefined",
            "not known in the middle",
            "lost with another",
        ];
        of.iter().map(|name| self.0[name]).sum()
    }

    pub fn faults(&self) -> Vec<String> {
        let missing = self.0.iter().filter(|(_, &count)| count == 0);
        missing
            .map(|(name, _)| format!("UNREACHED: passed on, {name}"))
            .collect()
    }
}

impl fmt::Display for Met {
    fn fmt(&self, f: &mut fmt::Formatter) -> fmt::Result {
        let said = NAMES.map(|name| format!("{name}: {}", self.0[name]));
        writeln!(f, "{:15}{}", "passed on", said.join(", "))
    }
}

/// So many trips of a seed, by both libraries; what they met, or where the first went wrong.
pub fn all(trips: u64, seed: u64) -> Result<Met, String> {
    let mut met = Met::new();
    for number in 0..trips {
        // Numbers that no case of the seed has, and no sequence by the true clock.
        let trip = Trip::new(&Random::of_case(seed, u64::MAX / 2 - number));
        let other = trip.run(by_reference, &mut Met::new());
        other
            .and_then(|()| trip.run(by_wrappers, &mut met))
            .map_err(|why| format!("trip {number} of seed {seed}: {why}"))?;
    }
    Ok(met)
}

#[cfg(test)]
mod tests {
    use super::*;

    /// How many of 500 trips do not end as they must.
    fn wrong(trip: impl Fn(&Random) -> Trip) -> usize {
        let numbers = 0..500;
        let ends = numbers.map(|n| trip(&Random::of_case(24, n)).run(by_wrappers, &mut Met::new()));
        ends.filter(Result::is_err).count()
    }

    /// With the premises none is wrong, and without any one of them some are.
    #[test]
    fn every_premise_counts() {
        assert_eq!(wrong(Trip::new), 0);
        let unchecked = |r: &Random| {
            let mut a = make::list_with_signals(r);
            make::know_replacements(r, &mut a);
            let c = pair::extension(r, &a);
            Trip::under(r, a, c)
        };
        let unknown_replacement = |r: &Random| {
            let mut trip = Trip::new(r);
            let a = &mut trip.middle.list;
            for number in 0..a.signals.len() {
                let top = a.signals[number].top_replacement();
                a.signals[number].replacement = r.of(&[0, top, r.word() & top]);
            }
            trip
        };
        let not_extended = |r: &Random| {
            let a = old_list(r);
            let mut c = pair::extension(r, &a);
            c.signals.iter_mut().for_each(|s| s.since = 1);
            Trip::under(r, a, c)
        };
        let not_of_c = |r: &Random| {
            let mut trip = Trip::new(r);
            trip.values.iter_mut().for_each(|value| *value ^= 1);
            trip
        };
        let late = |r: &Random| {
            let mut trip = Trip::new(r);
            trip.last.age = trip.last.age.wrapping_add(1);
            trip
        };
        let heard_again = |r: &Random| {
            let mut trip = Trip::new(r);
            let telegram = store::telegram(r, &trip.last.list, trip.kind);
            trip.last.other = Some((trip.last.vehicle, telegram));
            trip
        };
        for (premise, wrong) in [
            ("checks", wrong(unchecked)),
            ("replacements", wrong(unknown_replacement)),
            ("extends", wrong(not_extended)),
            ("composed under C", wrong(not_of_c)),
            ("limits", wrong(late)),
            ("no later telegram", wrong(heard_again)),
        ] {
            assert!((10..500).contains(&wrong), "{premise}: {wrong} wrong");
        }
    }
}
