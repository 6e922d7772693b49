//! A signal list as numbers, good or not, and its octets.

use reference::{Form, SIGNAL_SIZE};

#[derive(Debug, Clone, Copy, PartialEq)]
pub struct Signal {
    pub start: u64,
    pub width: u64,
    pub kind: u64,
    pub check: u64,
    pub since: u64,
    pub limit: u64,
    pub replacement: u64,
    /// Written in form 2 alone; 0 for none.
    pub serial: u64,
}

#[derive(Debug, Clone, Copy, PartialEq)]
pub struct Code {
    pub signal: u64,
    pub low: u64,
    pub high: u64,
}

#[derive(Debug, Clone, Copy, PartialEq)]
pub struct Route {
    pub signal: u64,
    pub vehicle: u64,
    pub zero: u64,
    pub start: u64,
}

#[derive(Debug, Clone, Default, PartialEq)]
pub struct List {
    /// The number that says its form: 2, or any other for form 1.
    pub form: u64,
    pub checks: Vec<u64>,
    pub signals: Vec<Signal>,
    pub codes: Vec<Code>,
    pub routes: Vec<Route>,
    /// Octets after the routes.
    pub more: Vec<u8>,
}

/// The most entries of the four sections.
pub const MOST: [usize; 4] = [64, 256, 512, 512];

/// The octets of an entry of the four sections, in the form that a number says.
pub const fn sizes(form: u64) -> [usize; 4] {
    [2, Form::of(form).signal_size(), 6, 6]
}

/// The octets of the longest list of a form: every section at its limit, each after a 2-octet count.
pub const fn longest(form: u64) -> usize {
    let ([checks, signals, codes, routes], size) = (MOST, sizes(form));
    4 * 2 + checks * size[0] + signals * size[1] + codes * size[2] + routes * size[3]
}

impl Signal {
    pub fn end(&self) -> u64 {
        self.start + self.width
    }

    /// Where fields of this type may lie.
    pub fn region(kind: u64) -> (u64, u64) {
        match kind {
            0 => (16, 320),
            _ => (320, 1024),
        }
    }

    pub fn carried_by(&self, kind: u64) -> bool {
        self.kind == 0 || self.kind == kind
    }

    /// Whether its width is the one that a scaled kind needs, or one bit more or less.
    pub fn is_near_16_bits(&self) -> bool {
        (15..=17).contains(&self.width)
    }

    /// The greatest value of the field; any number, where the width is none that a signal may have.
    pub fn top(&self) -> u64 {
        match self.width {
            0..=63 => (1 << self.width) - 1,
            _ => u64::MAX,
        }
    }

    /// The greatest replacement of the field, which has six octets.
    pub fn top_replacement(&self) -> u64 {
        self.top() & ((1 << 48) - 1)
    }
}

/// The number that stands in so many octets at a place.
fn number(octets: &[u8]) -> u64 {
    octets.iter().fold(0, |n, &octet| n << 8 | u64::from(octet))
}

impl List {
    pub fn octets(&self) -> Vec<u8> {
        let mut list = Vec::with_capacity(longest(self.form));
        let mut put =
            |n: u64, octets: usize| list.extend_from_slice(&n.to_be_bytes()[8 - octets..]);
        put(self.checks.len() as u64, 2);
        self.checks.iter().for_each(|&check| put(check, 2));
        put(self.signals.len() as u64, 2);
        for s in &self.signals {
            put(s.start, 2);
            put(s.width, 1);
            put(s.kind, 1);
            put(s.check, 1);
            put(s.since, 1);
            put(s.limit, 4);
            put(s.replacement, 6);
            put(s.serial, sizes(self.form)[1] - SIGNAL_SIZE);
        }
        put(self.codes.len() as u64, 2);
        for c in &self.codes {
            put(c.signal, 2);
            put(c.low, 2);
            put(c.high, 2);
        }
        put(self.routes.len() as u64, 2);
        for r in &self.routes {
            put(r.signal, 2);
            put(r.vehicle, 1);
            put(r.zero, 1);
            put(r.start, 2);
        }
        list.extend_from_slice(&self.more);
        list
    }

    /// The list that has these octets in a form, if all its entries are there. Nothing is judged.
    pub fn of(octets: &[u8], form: u64) -> Option<List> {
        let mut rest = octets;
        let mut sections: [Vec<&[u8]>; 4] = Default::default();
        for (section, size) in sections.iter_mut().zip(sizes(form)) {
            let (count, entries) = rest.split_at_checked(2)?;
            let (entries, behind) = entries.split_at_checked(number(count) as usize * size)?;
            *section = entries.chunks(size).collect();
            rest = behind;
        }
        let [checks, signals, codes, routes] = &sections;
        Some(List {
            form,
            checks: checks.iter().map(|e| number(e)).collect(),
            signals: signals.iter().map(|e| signal_of(e)).collect(),
            codes: codes.iter().map(|e| code_of(e)).collect(),
            routes: routes.iter().map(|e| route_of(e)).collect(),
            more: rest.to_vec(),
        })
    }

    pub fn version(&self) -> u64 {
        self.signals.iter().map(|s| s.since).max().unwrap_or(1)
    }

    pub fn codes_of(&self, signal: usize) -> impl Iterator<Item = &Code> {
        let of = move |code: &&Code| code.signal == signal as u64;
        self.codes.iter().filter(of)
    }

    /// Whether a signal knows a value: one with no entry knows every code.
    pub fn knows(&self, signal: usize, value: u64) -> bool {
        let mut codes = self.codes_of(signal).peekable();
        codes.peek().is_none() || codes.any(|code| (code.low..=code.high).contains(&value))
    }

    /// The place of the check that a signal names, if it names one.
    pub fn place(&self, signal: &Signal) -> Option<u64> {
        let check = signal.check.checked_sub(1)?;
        self.checks.get(check as usize).copied()
    }

    /// The signals under a check, by its number from 1.
    pub fn under(&self, check: u64) -> impl Iterator<Item = &Signal> {
        self.signals.iter().filter(move |s| s.check == check)
    }

    /// Whether a field of this type is clear of every check and of every field of its type.
    pub fn is_free(&self, kind: u64, start: u64, width: u64) -> bool {
        let end = start + width;
        let apart = |first: u64, past: u64| past <= start || end <= first;
        self.checks.iter().all(|&check| apart(check, check + 2))
            && self
                .signals
                .iter()
                .all(|s| s.kind != kind || apart(s.start, s.end()))
    }

    /// A check more, in its order; signals go on naming the places they named.
    pub fn insert_check(&mut self, place: u64) {
        let at = self.checks.partition_point(|&check| check < place);
        self.checks.insert(at, place);
        for s in &mut self.signals {
            s.check += u64::from(s.check > at as u64);
        }
    }

    /// A check less; signals that named it name none, all others go on naming the places they named.
    pub fn remove_check(&mut self, at: usize) {
        self.checks.remove(at);
        for s in &mut self.signals {
            if s.check == at as u64 + 1 {
                s.check = 0;
            }
            s.check -= u64::from(s.check > at as u64 + 1);
        }
    }

    /// A signal more, in its order; codes and routes go on naming the signals they named. Gives its number.
    pub fn insert_signal(&mut self, signal: Signal) -> usize {
        let before = |s: &Signal| (s.kind, s.start) < (signal.kind, signal.start);
        let at = self.signals.partition_point(before);
        self.signals.insert(at, signal);
        let number = at as u64;
        let codes = self.codes.iter_mut().map(|c| &mut c.signal);
        for named in codes.chain(self.routes.iter_mut().map(|r| &mut r.signal)) {
            *named += u64::from(*named >= number);
        }
        at
    }

    /// A signal less, with its codes and routes; all others go on naming the signals they named.
    pub fn remove_signal(&mut self, at: usize) {
        self.signals.remove(at);
        let number = at as u64;
        self.codes.retain(|c| c.signal != number);
        self.routes.retain(|r| r.signal != number);
        let codes = self.codes.iter_mut().map(|c| &mut c.signal);
        for named in codes.chain(self.routes.iter_mut().map(|r| &mut r.signal)) {
            *named -= u64::from(*named > number);
        }
    }
}

fn signal_of(e: &[u8]) -> Signal {
    Signal {
        start: number(&e[0..2]),
        width: number(&e[2..3]),
        kind: number(&e[3..4]),
        check: number(&e[4..5]),
        since: number(&e[5..6]),
        limit: number(&e[6..10]),
        replacement: number(&e[10..16]),
        serial: number(&e[SIGNAL_SIZE..]),
    }
}

fn code_of(e: &[u8]) -> Code {
    Code {
        signal: number(&e[0..2]),
        low: number(&e[2..4]),
        high: number(&e[4..6]),
    }
}

fn route_of(e: &[u8]) -> Route {
    Route {
        signal: number(&e[0..2]),
        vehicle: number(&e[2..3]),
        zero: number(&e[3..4]),
        start: number(&e[4..6]),
    }
}

#[cfg(test)]
mod tests {
    use super::*;
    use crate::{make, random::Random};
    use reference::SERIAL_SIZE;

    #[test]
    fn form_2_is_longer_by_the_serial_numbers() {
        assert_eq!(longest(2), 10_888);
        assert_eq!(longest(1) + MOST[1] * SERIAL_SIZE, longest(2));
    }

    #[test]
    fn a_list_is_what_its_octets_say() {
        for case in 0..2_000 {
            let list = make::list(&Random::of_case(1, case));
            assert_eq!(List::of(&list.octets(), list.form), Some(list));
        }
    }
}
