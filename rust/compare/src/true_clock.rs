//! Takes, sweeps and reads in sequences, against a model that goes by the true clock and knows neither stamps nor heard octets. C-12: "A read
//! given the true clock .. of a vehicle taken from and a signal with a limit, gives reason 3 exactly when the true age is above the limit."
//! And C-16: the gap is that between the last two telegrams taken from a vehicle, whatever happened between them.

use std::fmt;

use crate::list::List;
use crate::random::Random;
use crate::{make, store};
use reference::{HEARD, SLOT, STORE, VEHICLES};

/// The counter comes round, and the longest from a sweep to the next.
const TURN: u64 = 1 << 32;
const HALF: u64 = 1 << 31;

/// What the sequences of a seed must meet.
#[derive(Default)]
pub struct Met {
    counts: [u64; 8],
    gaps: [u64; 4],
}

const NAMES: [&str; 8] = [
    "in time",
    "too old",
    "at the limit",
    "1 ms above",
    "looks in time after a turn",
    "after two turns or more",
    "half a turn after the sweep",
    "never taken from",
];

const GAPS: [&str; 4] = [
    "gap after none",
    "gap after one",
    "gap of two",
    "of two a turn apart",
];

/// One sequence: both libraries' stores, and what the model knows.
struct Sequence<'a> {
    r: &'a Random,
    list: List,
    octets: Vec<u8>,
    proved: Vec<u8>,
    other: Vec<u8>,
    /// The true time of the last telegram that was taken from each vehicle.
    taken: [Option<u64>; VEHICLES + 1],
    /// And of the one before it.
    earlier: [Option<u64>; VEHICLES + 1],
    /// The true times of the step before and of the sweep before; of the start, where there is none.
    last: u64,
    swept: u64,
}

/// "a store with no slot heard or expired": all else of it is anything.
fn start(r: &Random) -> Vec<u8> {
    let mut store = match r.one_in(2) {
        true => r.octets(STORE),
        false => vec![0; STORE],
    };
    for slot in store.chunks_mut(SLOT) {
        if matches!(slot[HEARD], 1 | 2) {
            slot[HEARD] = r.of(&[0, 3, 255]);
        }
    }
    store
}

/// The form that a number says, as each library names it.
fn forms(form: u64) -> (dustferrule::Form, reference::Form) {
    match form {
        2 => (dustferrule::Form::Two, reference::Form::Two),
        _ => (dustferrule::Form::One, reference::Form::One),
    }
}

impl<'a> Sequence<'a> {
    fn new(r: &'a Random) -> Self {
        let (list, store) = (make::list_with_signals(r), start(r));
        let begun = r.of(&[0, TURN - 1, HALF, r.below(5 * TURN)]);
        Sequence {
            r,
            octets: list.octets(),
            list,
            proved: store.clone(),
            other: store,
            taken: [None; VEHICLES + 1],
            earlier: [None; VEHICLES + 1],
            last: begun,
            swept: begun,
        }
    }

    /// A true time from the step before on, and not too late for a sweep or a read.
    fn time(&self) -> u64 {
        let r = self.r;
        let latest = self.swept + HALF;
        let by = r.of(&[
            0,
            1,
            5_000,
            600_000,
            600_001,
            r.below(10_000),
            r.below(HALF),
            HALF,
        ]);
        latest.min(self.last + by)
    }

    /// The limit of some signal; a list may have none.
    fn limit(&self) -> u64 {
        match self.list.signals.len() {
            0 => 5_000,
            len => self.list.signals[self.r.index(len)].limit,
        }
    }

    fn same(&self, what: &str) -> Result<(), String> {
        match self.proved == self.other {
            true => Ok(()),
            false => Err(format!("{what} at {}: the stores differ", self.last)),
        }
    }

    /// Offers a telegram, which may be refused; what is refused is not taken.
    fn offer(&mut self, t: u64) -> Result<(), String> {
        let r = self.r;
        let kind = r.within(1, 3);
        let mut telegram = store::telegram(r, &self.list, kind);
        if r.one_in(6) {
            telegram[0] = r.octet();
        }
        let vehicle = r.of(&[1, 1, 2, 3, 63, 64]);
        let took = dustferrule::take(&mut self.proved, vehicle, t as u32, &telegram).is_ok();
        let other = reference::take(&mut self.other, vehicle, t as u32, &telegram).is_ok();
        self.last = t;
        if took {
            let v = vehicle as usize;
            self.earlier[v] = self.taken[v].replace(t);
        }
        match took == other {
            true => self.same("a telegram"),
            false => Err(format!("a telegram at {t}: taken by one")),
        }
    }

    fn sweep(&mut self, t: u64) -> Result<(), String> {
        let swept = dustferrule::sweep(&mut self.proved, t as u32).is_ok();
        let other = reference::sweep(&mut self.other, t as u32).is_ok();
        (self.last, self.swept) = (t, t);
        match swept && other {
            true => self.same("a sweep"),
            false => Err(format!("a sweep at {t}: refused")),
        }
    }

    /// The gap of some vehicles: from the telegram before the last, or from 0 where there is none.
    fn gaps(&self, met: &mut Met) -> Result<(), String> {
        for v in [1, 2, 3, 63] {
            let (taken, earlier) = (self.taken[v].unwrap_or(0), self.earlier[v].unwrap_or(0));
            let wanted = (taken - earlier) as u32;
            let gap = dustferrule::gap(&self.proved, v as u64).ok();
            if gap != Some(wanted) || reference::gap(&self.other, v as u64).ok() != gap {
                return Err(format!("vehicle {v}: gap {gap:?}, by the clock {wanted}"));
            }
            let arrivals =
                usize::from(self.taken[v].is_some()) + usize::from(self.earlier[v].is_some());
            met.gaps[arrivals] += 1;
            met.gaps[3] += u64::from(arrivals == 2 && taken - earlier >= TURN);
        }
        Ok(())
    }

    /// Every signal of some vehicles, at a true time.
    fn read(&mut self, t: u64, met: &mut Met) -> Result<(), String> {
        self.last = t;
        self.gaps(met)?;
        let (ours, theirs) = forms(self.list.form);
        for vehicle in [1, 2, 3, 63] {
            for (signal, limit) in self.list.signals.iter().map(|s| s.limit).enumerate() {
                let (now, number) = (t as u32, signal as u64);
                let (list, proved, other) = (&self.octets, &self.proved, &self.other);
                let read = dustferrule::read(list, ours, proved, now, vehicle, number);
                let other = reference::read(list, theirs, other, now, vehicle, number);
                let reason = read.map_or(255, |read| read.reason.number());
                let says = |wanted: bool| {
                    format!("vehicle {vehicle} signal {signal} at {t}: reason {reason}, too old: {wanted}")
                };
                if other.map_or(255, |read| read.reason) != reason {
                    return Err(says(reason == 3) + ", by the other library not");
                }
                let age = self.taken[vehicle as usize].map(|taken| t - taken);
                let too_old = limit != 0 && age.is_some_and(|age| age > limit);
                if (reason == 3) != too_old || (reason == 2) != age.is_none() {
                    return Err(says(too_old));
                }
                met.count(age, limit, t == self.swept + HALF);
            }
        }
        Ok(())
    }

    /// Towards a time at which a telegram that was taken looks new, by sweeps as far apart as they may be, or nearer.
    fn park(&mut self, met: &mut Met) -> Result<(), String> {
        let r = self.r;
        let Some(taken) = self.taken[r.within(1, 3) as usize] else {
            return Ok(());
        };
        let limit = self.limit();
        let aim = taken + TURN * r.within(1, 3) + r.of(&[0, 1, limit, limit + 1, r.below(600_000)]);
        while aim > self.swept + HALF {
            let latest = self.swept + HALF;
            self.sweep(r.of(&[latest, latest, r.within(self.last, latest)]))?;
        }
        match aim >= self.last {
            true => self.read(aim, met),
            false => Ok(()),
        }
    }

    fn run(&mut self, met: &mut Met) -> Result<(), String> {
        for _ in 0..self.r.within(1, 12) {
            let t = self.time();
            match self.r.below(8) {
                0..=2 => self.offer(t)?,
                3 => self.sweep(t)?,
                4 => self.park(met)?,
                _ => self.read(self.near(t), met)?,
            }
        }
        let t = self.time();
        self.read(t, met)
    }

    /// The time, or where it can be one at which a telegram is as old as a limit, or 1 ms older.
    fn near(&self, t: u64) -> u64 {
        let r = self.r;
        let limit = self.limit();
        let edge =
            self.taken[r.within(1, 3) as usize].map_or(t, |taken| taken + limit + r.below(2));
        match (self.last..=self.swept + HALF).contains(&edge) {
            true => edge,
            false => t,
        }
    }
}

impl Met {
    fn count(&mut self, age: Option<u64>, limit: u64, late: bool) {
        let Some(age) = age else {
            self.counts[7] += 1;
            return;
        };
        if limit == 0 {
            return;
        }
        let too_old = age > limit;
        let met = [
            !too_old,
            too_old,
            age == limit,
            age == limit + 1,
            too_old && age % TURN <= limit,
            age >= 2 * TURN,
            late,
            false,
        ];
        for (count, met) in self.counts.iter_mut().zip(met) {
            *count += u64::from(met);
        }
    }

    /// How many readings of a vehicle that was taken from, and a signal with a limit, agree.
    pub fn readings(&self) -> u64 {
        self.counts[0] + self.counts[1]
    }

    fn named(&self) -> impl Iterator<Item = (&'static str, u64)> + '_ {
        let names = NAMES.into_iter().chain(GAPS);
        names.zip(self.counts.into_iter().chain(self.gaps))
    }

    pub fn faults(&self) -> Vec<String> {
        let met = self.named();
        met.filter(|&(_, count)| count == 0)
            .map(|(name, _)| format!("UNREACHED: by the true clock, {name}"))
            .collect()
    }
}

impl fmt::Display for Met {
    fn fmt(&self, f: &mut fmt::Formatter) -> fmt::Result {
        let said: Vec<String> = self
            .named()
            .map(|(name, count)| format!("{name}: {count}"))
            .collect();
        writeln!(f, "{:15}{}", "true clock", said.join(", "))
    }
}

/// So many sequences of a seed; what they met, or where the first went wrong.
pub fn all(sequences: u64, seed: u64) -> Result<Met, String> {
    let mut met = Met::default();
    for number in 0..sequences {
        // Numbers that no case of the seed has.
        let r = Random::of_case(seed, u64::MAX - number);
        Sequence::new(&r)
            .run(&mut met)
            .map_err(|why| format!("sequence {number} of seed {seed}: {why}"))?;
    }
    Ok(met)
}

#[cfg(test)]
mod tests {
    use super::*;

    fn parked(r: &Random) -> Sequence<'_> {
        let mut parked = Sequence::new(r);
        while parked.taken[1].is_none() {
            parked.offer(parked.last).unwrap();
        }
        parked
    }

    /// Sweeps half a turn apart, and a whole turn apart: there the model notices that the old signal is live again.
    #[test]
    fn swept_too_seldom_shows() {
        let mut noticed = 0;
        for number in 0..200 {
            for (apart, held) in [(HALF, true), (TURN, false)] {
                let r = Random::of_case(9, number);
                let mut parked = parked(&r);
                let taken = parked.taken[1].unwrap();
                for k in 1..=2 * TURN / apart {
                    parked.sweep(taken + k * apart).unwrap();
                }
                let limited = parked.list.signals.iter().any(|s| s.limit != 0);
                let read = parked.read(taken + 2 * TURN, &mut Met::default());
                assert_eq!(read.is_ok(), held || !limited);
                noticed += u64::from(read.is_err());
            }
        }
        assert!(noticed > 100, "{noticed}");
    }
}
