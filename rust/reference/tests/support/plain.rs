//! Document 01 in its plainest form.

use std::ops::{Range, RangeInclusive};

use super::{HEAD, HEARD, SIGNAL_SIZE, SLOT, STAMP, STORE};
use reference::{Counts, Level, Reading, Refusal};

pub fn bit(octets: &[u8], address: usize) -> bool {
    octets[address / 8] & (0x80 >> (address % 8)) != 0
}

pub fn set_bit(octets: &mut [u8], address: usize, on: bool) {
    let weight = 0x80 >> (address % 8);
    if on {
        octets[address / 8] |= weight;
    } else {
        octets[address / 8] &= !weight;
    }
}

pub fn get(octets: &[u8], start: usize, width: usize) -> u64 {
    (start..start + width).fold(0, |value, address| {
        2 * value + u64::from(bit(octets, address))
    })
}

pub fn put(octets: &mut [u8], start: usize, width: usize, value: u64) {
    for i in 0..width {
        set_bit(octets, start + i, (value >> (width - 1 - i)) & 1 == 1);
    }
}

fn number(octets: &[u8]) -> u64 {
    octets
        .iter()
        .fold(0, |value, &octet| 256 * value + u64::from(octet))
}

/// 2^64 is no number of 64 bits.
fn fits(value: u64, width: u64) -> bool {
    u128::from(value) < 1 << width
}

#[derive(Clone, Debug, PartialEq)]
pub struct Signal {
    pub start: u64,
    pub width: u64,
    pub kind: u64,
    pub check: u64,
    pub since: u64,
    pub limit: u64,
    pub replacement: u64,
}

impl Signal {
    fn of(e: &[u8]) -> Signal {
        Signal {
            start: number(&e[0..2]),
            width: number(&e[2..3]),
            kind: number(&e[3..4]),
            check: number(&e[4..5]),
            since: number(&e[5..6]),
            limit: number(&e[6..10]),
            replacement: number(&e[10..16]),
        }
    }

    fn end(&self) -> u64 {
        self.start + self.width
    }
}

#[derive(Clone, Debug, PartialEq)]
pub struct Code {
    pub signal: u64,
    pub low: u64,
    pub high: u64,
}

#[derive(Clone, Debug, PartialEq)]
pub struct Route {
    pub signal: u64,
    pub vehicle: u64,
    pub zero: u64,
    pub start: u64,
}

#[derive(Clone, Debug, Default, PartialEq)]
pub struct List {
    pub checks: Vec<u64>,
    pub signals: Vec<Signal>,
    pub codes: Vec<Code>,
    pub routes: Vec<Route>,
}

fn section(
    list: &[u8],
    at: &mut usize,
    most: usize,
    size: usize,
) -> Result<Vec<(usize, Vec<u8>)>, Refusal> {
    let short = Err(Refusal {
        number: 1,
        carried: *at as u64,
    });
    if list.len() < *at + 2 {
        return short;
    }
    let count = number(&list[*at..*at + 2]) as usize;
    if count > most {
        return Err(Refusal {
            number: 2,
            carried: *at as u64,
        });
    }
    if list.len() < *at + 2 + count * size {
        return short;
    }
    let first = *at + 2;
    *at = first + count * size;
    Ok((0..count)
        .map(|i| {
            (
                first + i * size,
                list[first + i * size..first + (i + 1) * size].to_vec(),
            )
        })
        .collect())
}

impl List {
    pub fn judged(list: &[u8]) -> Result<List, Refusal> {
        List::judged_of(list, SIGNAL_SIZE)
    }

    /// With signal entries of so many octets, of which those behind the first 16 have no rule.
    pub fn judged_of(list: &[u8], size: usize) -> Result<List, Refusal> {
        let mut good = List::default();
        let mut at = 0;
        let bad = |offset: usize| {
            Err(Refusal {
                number: 3,
                carried: offset as u64,
            })
        };
        for (offset, e) in section(list, &mut at, 64, 2)? {
            let place = number(&e);
            if place % 2 == 1
                || !(16..=1022).contains(&place)
                || good.checks.iter().any(|&c| c >= place)
            {
                return bad(offset);
            }
            good.checks.push(place);
        }
        for (offset, e) in section(list, &mut at, 256, size)? {
            let s = Signal::of(&e);
            let rules = [
                (1..=64).contains(&s.width),
                s.kind <= 2,
                if s.kind == 0 {
                    s.start >= 16 && s.end() <= 320
                } else {
                    s.start >= 320 && s.end() <= 1024
                },
                s.check == 0
                    || (s.check as usize <= good.checks.len()
                        && (good.checks[s.check as usize - 1] < 320) == (s.kind == 0)),
                s.since >= 1,
                s.limit <= 600_000,
                s.width <= 64 && fits(s.replacement, s.width),
                good.signals.iter().all(|before| before.kind <= s.kind),
                good.signals
                    .iter()
                    .all(|before| before.kind != s.kind || before.end() <= s.start),
                (s.start..s.end()).all(|b| good.checks.iter().all(|&c| b != c && b != c + 1)),
            ];
            if rules.contains(&false) {
                return bad(offset);
            }
            good.signals.push(s);
        }
        for (offset, e) in section(list, &mut at, 512, 6)? {
            let c = Code {
                signal: number(&e[0..2]),
                low: number(&e[2..4]),
                high: number(&e[4..6]),
            };
            let Some(s) = good.signals.get(c.signal as usize) else {
                return bad(offset);
            };
            let rules = [
                s.width <= 16,
                c.low <= c.high,
                fits(c.high, s.width),
                good.codes.iter().all(|before| before.signal <= c.signal),
                good.codes
                    .iter()
                    .all(|before| before.signal != c.signal || c.low >= before.high + 2),
            ];
            if rules.contains(&false) {
                return bad(offset);
            }
            good.codes.push(c);
        }
        for (offset, e) in section(list, &mut at, 512, 6)? {
            let r = Route {
                signal: number(&e[0..2]),
                vehicle: number(&e[2..3]),
                zero: number(&e[3..4]),
                start: number(&e[4..6]),
            };
            let Some(s) = good.signals.get(r.signal as usize) else {
                return bad(offset);
            };
            let rules = [
                (1..=63).contains(&r.vehicle),
                r.zero == 0,
                r.start + s.width <= 2048,
                good.routes.iter().all(|before| {
                    before.start + good.signals[before.signal as usize].width <= r.start
                }),
            ];
            if rules.contains(&false) {
                return bad(offset);
            }
            good.routes.push(r);
        }
        if at < list.len() {
            return Err(Refusal {
                number: 4,
                carried: at as u64,
            });
        }
        Ok(good)
    }

    pub fn octets(&self) -> Vec<u8> {
        let mut list = Vec::new();
        let mut push =
            |value: u64, octets: usize| list.extend_from_slice(&value.to_be_bytes()[8 - octets..]);
        push(self.checks.len() as u64, 2);
        for &check in &self.checks {
            push(check, 2);
        }
        push(self.signals.len() as u64, 2);
        for s in &self.signals {
            push(s.start, 2);
            push(s.width, 1);
            push(s.kind, 1);
            push(s.check, 1);
            push(s.since, 1);
            push(s.limit, 4);
            push(s.replacement, 6);
        }
        push(self.codes.len() as u64, 2);
        for c in &self.codes {
            push(c.signal, 2);
            push(c.low, 2);
            push(c.high, 2);
        }
        push(self.routes.len() as u64, 2);
        for r in &self.routes {
            push(r.signal, 2);
            push(r.vehicle, 1);
            push(r.zero, 1);
            push(r.start, 2);
        }
        list
    }

    pub fn version(&self) -> u64 {
        self.signals.iter().map(|s| s.since).max().unwrap_or(1)
    }

    pub fn place(&self, signal: &Signal) -> Option<u64> {
        (signal.check != 0).then(|| self.checks[signal.check as usize - 1])
    }

    pub fn knows(&self, signal: u64, value: u64) -> bool {
        let mut of = self.codes.iter().filter(|c| c.signal == signal).peekable();
        of.peek().is_none() || of.any(|c| (c.low..=c.high).contains(&value))
    }
}

pub fn judge(list: &[u8]) -> Result<Counts, Refusal> {
    judge_of(list, SIGNAL_SIZE)
}

/// As [`judge`], with signal entries of so many octets.
pub fn judge_of(list: &[u8], size: usize) -> Result<Counts, Refusal> {
    List::judged_of(list, size).map(|list| Counts {
        checks: list.checks.len(),
        signals: list.signals.len(),
        codes: list.codes.len(),
        routes: list.routes.len(),
        version: list.version() as usize,
    })
}

/// The R1 grouping, row by row.
pub fn check_place(bit: u64) -> Option<u64> {
    let (octet, bit) = match (bit / 8 + 1, bit % 8) {
        (47..=53, _) => (41, 0),
        (54..=57, _) => (41, 2),
        (58, _) => (41, 4),
        (59..=61, _) => (41, 6),
        (62, 0..=3) => (42, 0),
        (62, _) => (42, 2),
        (63, _) => (42, 4),
        (64, _) => (42, 6),
        (65, _) => (43, 0),
        (66, _) => (43, 2),
        (67, _) => (43, 4),
        (68, _) => (43, 6),
        (69, _) => (44, 0),
        (70, _) => (44, 2),
        (71, _) => (44, 4),
        (72, _) => (44, 6),
        (73, _) => (45, 0),
        _ => return None,
    };
    Some(8 * (octet - 1) + bit)
}

/// Every rule of every signal, then of every route; with signal entries of so many octets.
pub fn judge_profile(allows_r1: bool, list: &[u8], size: usize) -> Result<Counts, Refusal> {
    let counts = judge_of(list, size)?;
    let good = List::judged_of(list, size)?;
    let breach = |offset: usize| {
        Err(Refusal {
            number: 34,
            carried: offset as u64,
        })
    };
    let mut offset = 2 + 2 * good.checks.len() + 2;
    for (i, s) in good.signals.iter().enumerate() {
        let rules = [
            s.kind == 0 || (s.kind == 1 && allows_r1),
            i < 64,
            s.check != 0,
            (1..=5_000).contains(&s.limit),
            good.knows(i as u64, s.replacement),
            s.kind == 0
                || (s.start..s.end()).all(|bit| {
                    let place = check_place(bit);
                    place.is_some() && place == good.place(s)
                }),
        ];
        if rules.contains(&false) {
            return breach(offset);
        }
        offset += size;
    }
    offset += 2 + 6 * good.codes.len() + 2;
    for r in &good.routes {
        if r.start + good.signals[r.signal as usize].width > 8 * 16 {
            return breach(offset);
        }
        offset += 6;
    }
    Ok(counts)
}

/// Whether `b` extends `a`, code by code.
pub fn extends(a: &List, b: &List) -> bool {
    let alike = |of_a: &Signal, of_b: &Signal| {
        of_a.kind == of_b.kind
            && of_a.start == of_b.start
            && of_a.width == of_b.width
            && a.place(of_a) == b.place(of_b)
            && of_a.since == of_b.since
    };
    let stands = a.signals.iter().enumerate().all(|(i, of_a)| {
        b.signals.iter().enumerate().any(|(j, of_b)| {
            alike(of_a, of_b)
                && (of_a.width > 16
                    || (0..1u64 << of_a.width)
                        .all(|c| !a.knows(i as u64, c) || b.knows(j as u64, c)))
        })
    });
    let new = b
        .signals
        .iter()
        .all(|of_b| a.signals.iter().any(|of_a| alike(of_a, of_b)) || of_b.since > a.version());
    stands && new
}

/// What stands at one key of two lists that are compared: the key, the numbers in both, and the rule of extending that it breaks, 0 for none.
pub type Difference = (u64, u64, u64, u64);

/// The number of the signal at a key, or how many signals there are.
fn signal_at(list: &List, key: u64) -> usize {
    let mut keys = list.signals.iter().map(|s| 1024 * s.kind + s.start);
    keys.position(|k| k == key).unwrap_or(list.signals.len())
}

/// The codes that a signal of both lists knows under `b` and not under `a`, one by one.
fn codes_between(a: &List, i: usize, b: &List, j: usize) -> Vec<u64> {
    let [width, other] = [a.signals[i].width, b.signals[j].width];
    if width != other || width > 16 {
        return vec![];
    }
    (0..1 << width)
        .filter(|&code| b.knows(j as u64, code) && !a.knows(i as u64, code))
        .collect()
}

/// Each key that a signal can have, one after the other.
pub fn signal_changes(a: &List, b: &List) -> Vec<Difference> {
    (0..3 * 1024)
        .filter_map(|key| {
            let (i, j) = (signal_at(a, key), signal_at(b, key));
            let breaks = match (a.signals.get(i), b.signals.get(j)) {
                (None, None) => return None,
                (Some(_), None) => 5,
                (None, Some(added)) if added.since > a.version() => 0,
                (None, Some(_)) => 6,
                (Some(old), Some(new)) => {
                    let lost = !codes_between(b, j, a, i).is_empty();
                    let gained = !codes_between(a, i, b, j).is_empty();
                    let changes = [
                        (1, old.width != new.width),
                        (2, a.place(old) != b.place(new)),
                        (3, old.since != new.since),
                        (4, lost),
                        (0, gained),
                        (0, old.limit != new.limit),
                        (0, old.replacement != new.replacement),
                    ];
                    changes.into_iter().find(|&(_, changed)| changed)?.0
                }
            };
            Some((key, i as u64, j as u64, breaks))
        })
        .collect()
}

/// Each bit of the vehicle bus data, likewise.
pub fn route_changes(a: &List, b: &List) -> Vec<Difference> {
    let route_at = |list: &List, bit| {
        let mut starts = list.routes.iter().map(|route| route.start);
        starts.position(|s| s == bit).unwrap_or(list.routes.len())
    };
    let carried = |list: &List, i: usize| {
        let route = list.routes.get(i)?;
        let s = &list.signals[route.signal as usize];
        Some((route.vehicle, s.kind, s.start))
    };
    (0..2048)
        .map(|bit| (bit, route_at(a, bit), route_at(b, bit)))
        .filter(|&(_, i, j)| carried(a, i) != carried(b, j))
        .map(|(bit, i, j)| (bit, i as u64, j as u64, 0))
        .collect()
}

/// Runs of the codes that the signal at a key has gained.
pub fn codes_gained(a: &List, b: &List, key: u64) -> Vec<(u64, u64)> {
    let (i, j) = (signal_at(a, key), signal_at(b, key));
    if i == a.signals.len() || j == b.signals.len() {
        return vec![];
    }
    let codes = codes_between(a, i, b, j);
    codes
        .chunk_by(|code, next| code + 1 == *next)
        .map(|run| (run[0], run[run.len() - 1]))
        .collect()
}

pub fn read(list: &List, store: &[u8], now: u32, vehicle: u64, signal: u64) -> Reading {
    let s = &list.signals[signal as usize];
    let slot = &store[SLOT * (vehicle as usize - 1)..SLOT * vehicle as usize];
    let telegram = &slot[HEAD..];
    let age = (u64::from(now) + (1 << 32) - number(&slot[STAMP])) % (1 << 32);
    let kind = get(telegram, 4, 4);
    let version = if telegram[1] == 0 {
        1
    } else {
        u64::from(telegram[1])
    };
    let mark = list.place(s).map(|place| get(telegram, place as usize, 2));
    let value = get(telegram, s.start as usize, s.width as usize);
    let heard = slot[HEARD] == 1 || slot[HEARD] == 2;
    let reason = if !heard || get(telegram, 0, 4) != 1 || !(1..=3).contains(&kind) {
        2
    } else if s.limit != 0 && (slot[HEARD] == 2 || age > s.limit) {
        3
    } else if !(s.kind == 0 || s.kind == kind) {
        4
    } else if s.since > version {
        5
    } else if mark == Some(0) {
        6
    } else if mark == Some(3) {
        7
    } else if !list.knows(signal, value) {
        8
    } else {
        u8::from(mark == Some(2))
    };
    Reading {
        value: if reason < 2 { value } else { s.replacement },
        reason,
    }
}

/// Entry by entry: which vehicle's and which signal's it is. The list has signal entries of so many octets.
pub fn read_all(
    list: &[u8],
    size: usize,
    store: &[u8],
    now: u32,
    vehicles: RangeInclusive<u64>,
    values: &mut [u64],
    reasons: &mut [u8],
) -> Result<(), Refusal> {
    let list = List::judged_of(list, size)?;
    let refuse = |number| Err(Refusal { number, carried: 0 });
    if store.len() != STORE {
        return refuse(5);
    }
    let (&first, &last) = (vehicles.start(), vehicles.end());
    if !(1..=63).contains(&last) {
        return refuse(6);
    }
    let signals = list.signals.len() as u64;
    let entries = (last - first + 1) * signals;
    if values.len() as u64 != entries || reasons.len() as u64 != entries {
        return refuse(13);
    }
    for entry in 0..entries {
        let (vehicle, signal) = (first + entry / signals, entry % signals);
        let reading = read(&list, store, now, vehicle, signal);
        values[entry as usize] = reading.value;
        reasons[entry as usize] = reading.reason;
    }
    Ok(())
}

pub fn marshal(list: &List, store: &[u8], now: u32, data: &mut [u8]) -> Result<u64, Refusal> {
    for route in &list.routes {
        if (8 * data.len() as u64) < route.start + list.signals[route.signal as usize].width {
            return Err(Refusal {
                number: 12,
                carried: 0,
            });
        }
    }
    let mut live = 0;
    for route in &list.routes {
        let reading = read(list, store, now, route.vehicle, route.signal);
        put(
            data,
            route.start as usize,
            list.signals[route.signal as usize].width as usize,
            reading.value,
        );
        live += u64::from(reading.reason < 2);
    }
    Ok(live)
}

pub fn compose(
    list: &List,
    kind: u64,
    values: &[u64],
    marks: &[u8],
    out: &mut [u8],
) -> Result<(), Refusal> {
    let refuse = |number, carried| Err(Refusal { number, carried });
    if !(1..=3).contains(&kind) {
        return refuse(9, 0);
    }
    if values.len() != list.signals.len() || marks.len() != list.checks.len() {
        return refuse(13, 0);
    }
    let length: usize = if kind == 3 { 40 } else { 128 };
    let written = |check: u64| check + 2 <= 8 * length as u64;
    for (&check, &mark) in list.checks.iter().zip(marks) {
        if written(check) && mark > 3 {
            return refuse(14, 0);
        }
    }
    for (i, (s, &value)) in list.signals.iter().zip(values).enumerate() {
        if (s.kind == 0 || s.kind == kind)
            && (!fits(value, s.width) || !list.knows(i as u64, value))
        {
            return refuse(15, i as u64);
        }
    }
    if out.len() != length {
        return refuse(16, 0);
    }
    out.fill(0);
    put(out, 0, 4, 1);
    put(out, 4, 4, kind);
    put(out, 8, 8, list.version());
    for (&check, &mark) in list.checks.iter().zip(marks) {
        if written(check) {
            put(out, check as usize, 2, u64::from(mark));
        }
    }
    for (s, &value) in list.signals.iter().zip(values) {
        if s.kind == 0 || s.kind == kind {
            put(out, s.start as usize, s.width as usize, value);
        }
    }
    Ok(())
}

/// Check by check, with every signal looked at for each.
pub fn relay(
    list: &List,
    store: &[u8],
    now: u32,
    vehicle: u64,
    out: &mut [u8],
) -> Result<(), Refusal> {
    let refuse = |number, carried| Err(Refusal { number, carried });
    let slot = &store[SLOT * (vehicle as usize - 1)..SLOT * vehicle as usize];
    let telegram = &slot[HEAD..];
    let kind = get(telegram, 4, 4);
    let heard = slot[HEARD] == 1 || slot[HEARD] == 2;
    if !heard || get(telegram, 0, 4) != 1 || !(1..=3).contains(&kind) {
        return refuse(9, 0);
    }
    let carried: Vec<(&Signal, u64, Reading)> = (0..)
        .zip(&list.signals)
        .filter(|(_, s)| s.kind == 0 || s.kind == kind)
        .map(|(i, s)| (s, i, read(list, store, now, vehicle, i)))
        .collect();
    for (_, i, reading) in &carried {
        if !list.knows(*i, reading.value) {
            return refuse(15, *i);
        }
    }
    let length = if kind == 3 { 40 } else { 128 };
    if out.len() != length {
        return refuse(16, 0);
    }
    out.fill(0);
    put(out, 0, 4, 1);
    put(out, 4, 4, kind);
    put(out, 8, 8, list.version());
    for (s, _, reading) in &carried {
        put(out, s.start as usize, s.width as usize, reading.value);
    }
    for &check in &list.checks {
        let mut under = carried
            .iter()
            .filter(|(s, ..)| list.place(s) == Some(check))
            .peekable();
        if under.peek().is_some() && under.all(|(.., reading)| reading.reason < 2) {
            let mark = get(telegram, check as usize, 2);
            put(out, check as usize, 2, mark);
        }
    }
    Ok(())
}

/// A block of remedy texts: its key, and where its text begins and ends.
pub type Block = (u8, usize, usize);

/// C-11: the blocks of a telegram, or the number by which it is refused.
pub fn remedies(t: &[u8]) -> Result<Vec<Block>, u8> {
    let is_ours = t.len() >= 30 && number(&t[6..8]) == 0x8A08;
    if t.len() < 30 || t.len() > if is_ours { 2_110 } else { 1_024 } {
        return Err(21);
    }
    if !is_ours || t[22] > 1 || t[23] < 1 || t[23] > 8 {
        return Err(29);
    }
    let mut blocks: Vec<Block> = vec![];
    let mut at = 30;
    for _ in 0..t[23] {
        if let Some(fault) = remedy_faults(t, at, &blocks).first() {
            return Err(*fault);
        }
        let end = at + number(&t[at..at + 2]) as usize;
        blocks.push((t[at + 2], at + 6, end));
        at = end;
    }
    match at == t.len() {
        true => Ok(blocks),
        false => Err(28),
    }
}

/// All that is wrong with the block that begins here, behind these, the lowest number first.
fn remedy_faults(t: &[u8], at: usize, before: &[Block]) -> Vec<u8> {
    if at + 6 > t.len() {
        return vec![28];
    }
    let [length, text] = [at, at + 4].map(|from| number(&t[from..from + 2]) as usize);
    let key = t[at + 2];
    let wrong = [
        (28, at + length > t.len()),
        (29, !(1..=8).contains(&key)),
        (29, text % 2 == 1),
        (29, text > 254),
        (29, length != 6 + text),
        (30, before.iter().any(|&(other, _, _)| other == key)),
    ];
    let wrong = wrong.into_iter().filter(|&(_, is)| is);
    wrong.map(|(fault, _)| fault).collect()
}

/// C-14: table E.1 by octets, with the row of each bit, 0 for none.
#[rustfmt::skip]
pub const ROWS: [(Level, u8, [u32; 8]); 19] = [
    (Level::Gateway, 22, [17, 19, 21, 22, 23, 24, 29, 30]),
    (Level::Gateway, 23, [31, 32, 33, 34, 35, 36, 37, 142]),
    (Level::Gateway, 24, [38, 39, 40, 41, 44, 45, 46, 47]),
    (Level::Gateway, 25, [48, 49, 50, 51, 52, 53, 54, 55]),
    (Level::Gateway, 26, [56, 57, 58, 59, 60, 61, 62, 63]),
    (Level::Gateway, 27, [64, 65, 66, 67, 68, 69, 70, 71]),
    (Level::Gateway, 28, [72, 73, 74, 75, 76, 77, 78, 79]),
    (Level::Gateway, 29, [80, 81, 82, 83, 84, 85, 86, 87]),
    (Level::Gateway, 30, [88, 89, 90, 91, 92, 93, 94, 95]),
    (Level::Gateway, 31, [96, 97, 98, 99, 100, 101, 102, 103]),
    (Level::Gateway, 32, [104, 106, 107, 110, 111, 112, 113, 114]),
    (Level::Gateway, 33, [115, 116, 117, 119, 120, 121, 123, 124]),
    (Level::Gateway, 34, [126, 128, 131, 132, 143, 144, 145, 146]),
    (Level::Gateway, 35, [147, 148, 149, 150, 151, 152, 0, 0]),
    (Level::Vehicle, 50, [1, 2, 3, 4, 5, 6, 7, 8]),
    (Level::Vehicle, 51, [9, 10, 11, 12, 13, 14, 15, 16]),
    (Level::Vehicle, 52, [18, 20, 25, 26, 27, 28, 42, 43]),
    (Level::Vehicle, 53, [105, 108, 109, 118, 122, 125, 127, 129]),
    (Level::Vehicle, 54, [130, 141, 0, 0, 0, 0, 0, 0]),
];

/// The level, octet and bit of a row.
pub fn row(number: u32) -> Option<(Level, u8, u8)> {
    let places = ROWS.into_iter().flat_map(|(level, octet, rows)| {
        (0..8)
            .zip(rows)
            .map(move |(bit, row)| (row, (level, octet, bit)))
    });
    let mut found = places.filter(|&(row, _)| row != 0 && row == number);
    let place = found.next().map(|(_, place)| place);
    assert_eq!(found.next(), None);
    place
}

/// The bit at a place of a record, octets from 1.
pub fn at(record: &[u8], octet: u8, at: u8) -> bool {
    bit(record, 8 * (usize::from(octet) - 1) + usize::from(at))
}

/// What a vehicle is, by its record and its pair of marks: leading, coach, tractive, led, sleeping.
pub fn described(record: &[u8], pair: u8) -> [bool; 5] {
    let coach = [(50, 0), (50, 1), (51, 0), (51, 3), (51, 4)];
    [
        pair % 2 == 1,
        coach.iter().any(|&(octet, bit)| at(record, octet, bit)),
        at(record, 24, 0) || at(record, 24, 1),
        pair / 8 % 2 == 1,
        at(record, 51, 4),
    ]
}

/// C-14: the vehicles of a train, or the number by which it is refused.
pub fn christened(records: &[u8], pairs: &[u8]) -> Result<Vec<[bool; 5]>, u8> {
    if records.len() != 56 * pairs.len() {
        return Err(31);
    }
    if pairs.is_empty() || pairs.len() > 63 {
        return Err(17);
    }
    let train: Vec<[bool; 5]> = (records.chunks(56).zip(pairs))
        .map(|(record, &pair)| described(record, pair))
        .collect();
    let leads = train.iter().filter(|vehicle| vehicle[0]).count();
    let wrong = |&[leading, _, tractive, led, _]: &[bool; 5]| led && (leading || !tractive);
    match leads > 1 || train.iter().any(wrong) {
        true => Err(18),
        false => Ok(train),
    }
}

/// The vehicles of a consist of these marks that meet an address.
pub fn resolved(marks: &[u8], address: u64) -> Result<Vec<u64>, Refusal> {
    let is = |vehicle: u64, weight: u8| marks[vehicle as usize - 1] / weight % 2 == 1;
    let train = || 1..=marks.len() as u64;
    let refuse = |number| Err(Refusal { number, carried: 0 });
    if marks.is_empty() || marks.len() > 63 {
        return refuse(17);
    }
    if train().filter(|&v| is(v, 1)).count() > 1
        || train().any(|v| is(v, 8) && (!is(v, 4) || is(v, 1)))
    {
        return refuse(18);
    }
    let met: Vec<u64> = match address {
        1..=63 => train().filter(|&v| v == address).collect(),
        64 => train().filter(|&v| is(v, 1)).collect(),
        65 => train().filter(|&v| is(v, 8)).collect(),
        66 => train().collect(),
        67 => train().filter(|&v| is(v, 2)).collect(),
        70 => train().filter(|&v| is(v, 4)).collect(),
        92 => train().filter(|&v| is(v, 16)).collect(),
        _ => return refuse(19),
    };
    if met.is_empty() {
        return refuse(20);
    }
    Ok(met)
}

/// C-20: what a side shows, 0 locked, 1 open, 2 not known, and the vehicles that kept it from locked.
pub type Side = (u8, Vec<u64>);

/// "Locked exactly if every vehicle's bit is live and 1; open if any vehicle's is live and 0; not known otherwise."
fn side(list: &List, store: &[u8], now: u32, asked: &[u64], signal: u64) -> Side {
    let live = |vehicle: u64| {
        let reading = read(list, store, now, vehicle, signal);
        (reading.reason < 2).then_some(reading.value)
    };
    let state = if asked.iter().all(|&v| live(v) == Some(1)) {
        0
    } else if asked.iter().any(|&v| live(v) == Some(0)) {
        1
    } else {
        2
    };
    let kept = asked.iter().copied().filter(|&v| live(v) != Some(1));
    (state, kept.collect())
}

/// C-20: the left side and the right side, with signal entries of so many octets. "35 .. after 1-5 and before 17-20".
pub fn doors(
    list: &[u8],
    size: usize,
    store: &[u8],
    now: u32,
    marks: &[u8],
    address: u64,
) -> Result<[Side; 2], Refusal> {
    let list = List::judged_of(list, size)?;
    let refuse = |number| Err(Refusal { number, carried: 0 });
    if store.len() != STORE {
        return refuse(5);
    }
    let bit = |bit: u64| {
        let door = |s: &Signal| s.kind == 0 && s.start == 8 * (20 - 1) + bit && s.width == 1;
        list.signals.iter().position(door)
    };
    let (Some(left), Some(right)) = (bit(4), bit(5)) else {
        return refuse(35);
    };
    let asked = resolved(marks, address)?;
    Ok([left, right].map(|signal| side(&list, store, now, &asked, signal as u64)))
}

/// C-21: a step of a recording.
#[derive(Clone, Debug)]
pub struct Step {
    pub store: Vec<u8>,
    pub clock: u32,
    pub before: Vec<u8>,
    pub after: Vec<u8>,
}

/// The first wrong bit, if there is one, by its address; and the route it lies in, if in any, with the reason.
pub type Found = Option<(usize, Option<(usize, u8)>)>;

/// The bits of a route's field.
fn field(list: &List, r: &Route) -> Range<usize> {
    let width = list.signals[r.signal as usize].width;
    r.start as usize..(r.start + width) as usize
}

/// What the bit at an address must be, and the route it lies in, with the reason.
fn ours(list: &List, step: &Step, address: usize) -> (bool, Option<(usize, u8)>) {
    let has = |r: &Route| field(list, r).contains(&address);
    let Some(number) = list.routes.iter().position(has) else {
        return (bit(&step.before, address), None);
    };
    let r = &list.routes[number];
    let reading = read(list, &step.store, step.clock, r.vehicle, r.signal);
    let behind = field(list, r).end - 1 - address;
    (
        reading.value >> behind & 1 == 1,
        Some((number, reading.reason)),
    )
}

/// "Order in a step: 38, then 1-5 and 12, 36, 37", then bit by bit; with signal entries of so many octets.
pub fn check_step(
    list: &[u8],
    size: usize,
    steps: usize,
    last: &[u8],
    step: &Step,
) -> Result<Found, Refusal> {
    let refuse = |number| Err(Refusal { number, carried: 0 });
    if steps >= 1_000 {
        return refuse(38);
    }
    let list = List::judged_of(list, size)?;
    if step.store.len() != STORE {
        return refuse(5);
    }
    let bits = 8 * step.before.len();
    if list.routes.iter().any(|r| bits < field(&list, r).end) {
        return refuse(12);
    }
    if step.after.len() != step.before.len() {
        return refuse(36);
    }
    if steps != 0 && step.before != last {
        return refuse(37);
    }
    for address in 0..bits {
        let (ours, place) = ours(&list, step, address);
        if bit(&step.after, address) != ours {
            return Ok(Some((address, place)));
        }
    }
    Ok(None)
}
