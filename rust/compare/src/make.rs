//! Good lists: mostly short, some with a section at its limit, a few as long as a list can be.

use crate::list::{Code, List, Route, Signal, MOST};
use crate::random::Random;

/// How many entries each section is to have, where they find room, and how wide the signals may be.
struct Aim {
    entries: [usize; 4],
    widths: (u64, u64),
}

/// From here on a section is made dense: no gaps, so that all its entries find room.
const DENSE: usize = 60;

impl Aim {
    /// 256 fields of up to 4 bits beside 64 checks, two code ranges for each, 512 routes of up to 4 bits.
    fn longest() -> Aim {
        Aim {
            entries: MOST,
            widths: (2, 4),
        }
    }

    fn new(r: &Random) -> Aim {
        if r.one_in(700) {
            return Aim::longest();
        }
        let entries = MOST.map(|most| few(r, most));
        let widths = match entries[1] >= DENSE {
            true => (1, 4),
            false => r.of(&[
                (1, 2),
                (1, 4),
                (1, 8),
                (3, 16),
                (15, 18),
                (1, 48),
                (44, 50),
                (1, 64),
                (62, 64),
            ]),
        };
        Aim { entries, widths }
    }
}

fn few(r: &Random, most: usize) -> usize {
    match r.below(400) {
        0 => most,
        1 => r.index(most + 1),
        2..=40 => r.index(25),
        _ => r.index(6),
    }
}

/// A good list.
pub fn list(r: &Random) -> List {
    list_of(r, Aim::new(r))
}

/// A good list as long as it can be, if all its entries find room.
pub fn longest(r: &Random) -> List {
    list_of(r, Aim::longest())
}

fn list_of(r: &Random, aim: Aim) -> List {
    let checks = checks(r, aim.entries[0]);
    let signals = signals(r, &aim, &checks);
    let codes = codes(r, aim.entries[2], &signals);
    let routes = routes(r, aim.entries[3], &signals);
    let mut list = List {
        form: 1,
        checks,
        signals,
        codes,
        routes,
        more: Vec::new(),
    };
    lay_out(r, &mut list, form(r));
    list
}

/// A number that says a form: 2, or another for form 1.
pub fn form(r: &Random) -> u64 {
    r.of(&[1, 1, 1, 1, 2, 2, 2, 2, 2, 0, 3, 255])
}

/// Gives a list a form, and in form 2 serial numbers: none, one, or any.
pub fn lay_out(r: &Random, list: &mut List, form: u64) {
    list.form = form;
    list.signals.iter_mut().for_each(|s| s.serial = 0);
    if form != 2 || list.signals.is_empty() || r.one_in(3) {
        return;
    }
    let (alone, any) = (r.index(list.signals.len()), r.one_in(2));
    for (number, s) in list.signals.iter_mut().enumerate() {
        if any || number == alone {
            s.serial = r.of(&[0x40C0, 1, 0x100, 0xFFFF, r.word() & 0xFFFF]);
        }
    }
}

/// A good list that has a signal; mostly, since any list must do now and then.
pub fn list_with_signals(r: &Random) -> List {
    list_with(r, |list| !list.signals.is_empty())
}

/// A good list of a few signals, of every width alike.
pub fn list_of_any_width(r: &Random) -> List {
    let entries = [3, 4, 8, 4].map(|most| r.index(most + 1));
    let widths = (1, 64);
    list_of(r, Aim { entries, widths })
}

/// A good list that has a route; mostly.
pub fn list_with_routes(r: &Random) -> List {
    list_with(r, |list| !list.routes.is_empty())
}

/// A good list that has known-code entries; mostly.
pub fn list_with_codes(r: &Random) -> List {
    list_with(r, |list| !list.codes.is_empty())
}

/// A good list that has a signal of 16 bits, or of one more or less; mostly.
pub fn list_to_scale(r: &Random) -> List {
    list_with(r, |list| list.signals.iter().any(Signal::is_near_16_bits))
}

/// A good list that has several signals under a check, with replacements that are known; mostly.
pub fn list_to_relay(r: &Random) -> List {
    let several = |list: &List, check| list.under(check).nth(1).is_some();
    let mut list = list_with(r, |list| {
        (1..=list.checks.len() as u64).any(|check| several(list, check))
    });
    if !r.one_in(4) {
        know_replacements(r, &mut list);
    }
    list
}

/// Gives every signal a replacement that it knows.
pub fn know_replacements(r: &Random, list: &mut List) {
    for number in 0..list.signals.len() {
        if !list.knows(number, list.signals[number].replacement) {
            let known: Vec<Code> = list.codes_of(number).copied().collect();
            let range = r.of(&known);
            list.signals[number].replacement = r.of(&[range.low, range.high]);
        }
    }
}

fn list_with(r: &Random, wanted: impl Fn(&List) -> bool) -> List {
    loop {
        let list = list(r);
        if wanted(&list) || r.one_in(16) {
            return list;
        }
    }
}

fn checks(r: &Random, aim: usize) -> Vec<u64> {
    let mut checks = Vec::new();
    while checks.len() < aim {
        let place = match r.below(16) {
            0 => r.of(&[16, 318, 320, 1022]),
            1..=8 => 2 * r.within(8, 159),
            _ => 2 * r.within(160, 511),
        };
        if !checks.contains(&place) {
            checks.push(place);
        }
    }
    checks.sort_unstable();
    checks
}

fn signals(r: &Random, aim: &Aim, checks: &[u64]) -> Vec<Signal> {
    let aimed = aim.entries[1];
    let dense = aimed >= DENSE;
    let versions = r.of(&[1, 1, 2, 3, 9, 255]);
    let mut signals = Vec::new();
    for kind in 0..=2 {
        let left = aimed - signals.len();
        let share = match (dense, kind) {
            (_, 2) => left,
            (true, 0) => left / 7,
            (true, _) => left / 2,
            (false, _) => r.index(left + 1),
        };
        let gaps = if dense { 2 } else { r.of(&[1, 2, 5, 40, 200]) };
        let (mut at, end) = Signal::region(kind);
        for _ in 0..share {
            let width = r.within(aim.widths.0, aim.widths.1);
            let start = past_checks(checks, at + r.below(gaps), width);
            if start + width > end {
                break;
            }
            let signal = signal(r, checks, kind, start, width);
            at = signal.end();
            signals.push(Signal {
                since: r.within(1, versions),
                ..signal
            });
        }
    }
    signals
}

/// The first start, at or past this one, of a field that shares no bit with a check.
pub fn past_checks(checks: &[u64], mut start: u64, width: u64) -> u64 {
    for &check in checks {
        if check < start + width && start < check + 2 {
            start = check + 2;
        }
    }
    start
}

/// A signal at this place, since version 1.
pub fn signal(r: &Random, checks: &[u64], kind: u64, start: u64, width: u64) -> Signal {
    let mut signal = Signal {
        start,
        width,
        kind,
        check: 0,
        since: 1,
        limit: r.of(&[0, 1, 2, 100, 5_000, 599_999, 600_000]),
        replacement: 0,
        serial: 0,
    };
    let top = signal.top_replacement();
    signal.replacement = r.of(&[0, top, r.word() & top]);
    if !checks.is_empty() && !r.one_in(4) {
        // Any check of the side that the type asks for.
        let split = checks.partition_point(|&check| check < 320);
        let (first, past) = match kind {
            0 => (0, split),
            _ => (split, checks.len()),
        };
        if first < past {
            signal.check = r.within(first as u64 + 1, past as u64);
        }
    }
    signal
}

pub fn codes(r: &Random, aim: usize, signals: &[Signal]) -> Vec<Code> {
    let dense = aim >= DENSE;
    let mut codes = Vec::new();
    for (number, s) in signals.iter().enumerate() {
        if s.width > 16 || !dense && r.one_in(3) {
            continue;
        }
        ranges(
            r,
            aim - codes.len(),
            number as u64,
            s.top(),
            dense,
            &mut codes,
        );
    }
    codes
}

/// Known ranges of one signal, `most` at most; dense are single codes with one unknown code between them.
fn ranges(r: &Random, most: usize, signal: u64, top: u64, dense: bool, codes: &mut Vec<Code>) {
    let span = if dense { 1 } else { r.of(&[1, 2, 4, top + 1]) };
    let mut at = if dense { 0 } else { r.below(3) };
    for _ in 0..most {
        if at > top {
            break;
        }
        let low = (at + r.below(span)).min(top);
        let high = match !dense && r.one_in(6) {
            true => top,
            false => (low + r.below(span)).min(top),
        };
        codes.push(Code { signal, low, high });
        at = high + 2;
        if !dense && r.one_in(3) {
            break;
        }
    }
}

fn routes(r: &Random, aim: usize, signals: &[Signal]) -> Vec<Route> {
    let mut routes = Vec::new();
    let dense = aim >= DENSE;
    let gaps = if dense { 1 } else { r.of(&[1, 2, 9, 300]) };
    let fleet = r.of(&[1, 3, 3, 63]);
    let mut at = 0;
    for _ in 0..aim {
        if signals.is_empty() {
            break;
        }
        let signal = r.index(signals.len());
        let start = at + r.below(gaps);
        at = start + signals[signal].width;
        if at > 2048 {
            break;
        }
        routes.push(Route {
            signal: signal as u64,
            vehicle: r.within(1, fleet),
            zero: 0,
            start,
        });
    }
    if r.one_in(12) {
        // The last route ends with the last bit that a route may have.
        if let Some(last) = routes.last_mut() {
            last.start = 2048 - signals[last.signal as usize].width;
        }
    }
    routes
}
