//! Lists in a profile, with all that it allows, and such that break a rule or two of it, or come near to it.

use std::sync::LazyLock;

use crate::list::{Code, List, Route, Signal};
use crate::make;
use crate::random::Random;

/// The most signals, the longest time limit and the bits of destination data that a profile allows.
pub const SIGNALS: usize = 64;
pub const LIMIT: u64 = 5_000;
pub const DATA: u64 = 128;

/// The bits under a check place of the R1 grouping, from the first to before the end.
#[derive(Debug, Clone, Copy, PartialEq)]
pub struct Row {
    pub place: u64,
    pub first: u64,
    pub end: u64,
}

/// The rows of the grouping, in their order.
pub static ROWS: LazyLock<Vec<Row>> = LazyLock::new(|| {
    let mut rows: Vec<Row> = Vec::new();
    for first in 0..1_024 {
        match (reference::check_place(first), rows.last_mut()) {
            (Ok(place), Some(row)) if row.place == place => row.end += 1,
            (Ok(place), _) => rows.push(Row {
                place,
                first,
                end: first + 1,
            }),
            (Err(_), _) => {}
        }
    }
    rows
});

/// A list in a profile, or what became of it.
pub fn list(r: &Random) -> List {
    let mut list = in_profile(r, !r.one_in(3));
    for _ in 0..r.of(&[0, 0, 1, 1, 1, 1, 2]) {
        breach(r, &mut list);
    }
    make::lay_out(r, &mut list, make::form(r));
    list
}

/// A list in the profile of driving trailers; without R1 signals in that of plain coaches too.
fn in_profile(r: &Random, r1: bool) -> List {
    let mut list = List {
        form: 1,
        checks: checks(r, r1),
        ..List::default()
    };
    let widths = r.of(&[(1, 1), (1, 4), (1, 8), (2, 16), (15, 64), (1, 64)]);
    let gaps = r.of(&[1, 2, 9, 60]);
    let aim = r.of(&[0, 1, 2, 5, 15, 40, SIGNALS]);
    fill(r, &mut list, 0, Signal::region(0), aim, widths, gaps);
    for row in ROWS.iter().filter(|_| r1) {
        if list.checks.contains(&row.place) {
            let bits = (row.first, row.end);
            let whole = [row.end - row.first; 2].into();
            match r.one_in(6) {
                true => fill(r, &mut list, 1, bits, 1, whole, 1),
                false => fill(r, &mut list, 1, bits, r.index(4), widths, gaps.min(4)),
            }
        }
    }
    list.signals.truncate(SIGNALS);
    list.codes = make::codes(r, r.of(&[0, 5, 100]), &list.signals);
    make::know_replacements(r, &mut list);
    routes(r, &mut list);
    list
}

/// Common ones, some or all of the grouping, and others of R1 and R2, so that a check's number does not tell its place.
fn checks(r: &Random, r1: bool) -> Vec<u64> {
    let mut checks: Vec<u64> = (0..r.within(1, 4)).map(|_| 2 * r.within(8, 159)).collect();
    let every = r.of(&[1, 2, 6, 17]);
    let places = ROWS.iter().map(|row| row.place);
    checks.extend(places.filter(|_| r1 && r.one_in(every)));
    for _ in 0..r.of(&[0, 0, 0, 1, 3]) {
        checks.push(r.of(&[354, 366, 584, 1_022, 2 * r.within(160, 511)]));
    }
    checks.sort_unstable();
    checks.dedup();
    checks
}

/// Up to so many signals of a type in these bits: common ones under any common check, those of R1 under that of their row.
fn fill(
    r: &Random,
    list: &mut List,
    kind: u64,
    (mut at, end): (u64, u64),
    aim: usize,
    widths: (u64, u64),
    gaps: u64,
) {
    for _ in 0..aim {
        let width = r.within(widths.0, widths.1);
        let start = make::past_checks(&list.checks, at + r.below(gaps), width);
        if start + width > end {
            return;
        }
        let signal = narrow(r, list, kind, start, width);
        at = signal.end();
        list.signals.push(signal);
    }
}

/// A signal at this place, as a profile allows it.
fn narrow(r: &Random, list: &List, kind: u64, start: u64, width: u64) -> Signal {
    let common = list.checks.partition_point(|&check| check < 320) as u64;
    let place = reference::check_place(start);
    let row = list.checks.iter().position(|&check| place == Ok(check));
    Signal {
        check: match (kind, row) {
            (0, _) => r.within(1, common),
            (_, Some(at)) => at as u64 + 1,
            (_, None) => list.checks.len() as u64,
        },
        limit: r.of(&[1, 2, 1_000, LIMIT - 1, LIMIT, LIMIT]),
        since: r.within(1, 3),
        ..make::signal(r, &[], kind, start, width)
    }
}

/// Routes of any signals, the last of which may end with the data.
fn routes(r: &Random, list: &mut List) {
    let (aim, gaps) = (r.of(&[0, 1, 3, 40, 128]), r.of(&[1, 2, 30]));
    let mut at = 0;
    for _ in 0..aim {
        if list.signals.is_empty() {
            return;
        }
        let signal = r.index(list.signals.len());
        let width = list.signals[signal].width;
        let start = match r.one_in(aim as u64) && at + width <= DATA {
            true => DATA - width,
            false => at + r.below(gaps),
        };
        at = start + width;
        if at > DATA {
            return;
        }
        list.routes.push(route(r, signal, start));
    }
}

fn route(r: &Random, signal: usize, start: u64) -> Route {
    Route {
        signal: signal as u64,
        vehicle: r.within(1, 63),
        zero: 0,
        start,
    }
}

/// Breaks a rule, or stays at its edge.
fn breach(r: &Random, list: &mut List) {
    if list.signals.is_empty() {
        return;
    }
    let any = r.index(list.signals.len());
    let of_r1: Vec<usize> = (0..list.signals.len())
        .filter(|&number| list.signals[number].kind == 1)
        .collect();
    match r.below(12) {
        0 => list.signals[any].limit = r.of(&[0, 0, 1, LIMIT]),
        1 => list.signals[any].limit = LIMIT + r.of(&[0, 1, 1, 1 << 16, 595_000]),
        2 => list.signals[any].check = 0,
        3 => forget(r, list, any),
        4 => crowd(r, list, r.of(&[63, 64, 65, 65, 66, 80])),
        5 | 6 => stretch_routes(r, list, any),
        7 => turn_to_r2(r, list, &of_r1),
        8 | 9 if !of_r1.is_empty() => move_field(r, list, r.of(&of_r1)),
        _ if !of_r1.is_empty() => {
            // Any check of its side: mostly another.
            let first = list.checks.partition_point(|&check| check < 320) as u64 + 1;
            list.signals[r.of(&of_r1)].check = r.within(first, list.checks.len() as u64);
        }
        _ => {}
    }
}

/// Its replacement is beside a code range, or a range beside its replacement.
fn forget(r: &Random, list: &mut List, number: usize) {
    let s = list.signals[number];
    let known: Vec<Code> = list.codes_of(number).copied().collect();
    if !known.is_empty() {
        let code = r.of(&known);
        let beside = r.of(&[code.low.wrapping_sub(1), code.high + 1, code.low]);
        list.signals[number].replacement = beside.min(s.top());
    } else if (2..=16).contains(&s.width) {
        let signal = number as u64;
        let (low, high) = match s.replacement {
            0 => (1, s.top()),
            known => (0, known - 1),
        };
        let at = list.codes.partition_point(|code| code.signal < signal);
        list.codes.insert(at, Code { signal, low, high });
    }
}

/// So many signals, if there is room for as many common ones of a bit.
fn crowd(r: &Random, list: &mut List, wanted: usize) {
    let (first, end) = Signal::region(0);
    for start in first..end {
        if list.signals.len() < wanted && list.is_free(0, start, 1) {
            let signal = narrow(r, list, 0, start, 1);
            list.insert_signal(signal);
        }
    }
    while list.signals.len() > wanted {
        list.remove_signal(r.index(list.signals.len()));
    }
}

/// A signal's route around the end of the data, or far behind it; and at times another behind that.
fn stretch_routes(r: &Random, list: &mut List, signal: usize) {
    let width = list.signals[signal].width;
    let end = DATA + r.of(&[0, 1, 1, 8, 900]);
    let widths: Vec<u64> = list.signals.iter().map(|s| s.width).collect();
    let stays = |route: &Route| route.start + widths[route.signal as usize] <= end - width;
    list.routes.retain(stays);
    list.routes.push(route(r, signal, end - width));
    if r.one_in(3) {
        list.routes.push(route(r, signal, end + r.below(9)));
    }
}

/// R1 signals from some of them on are of R2; where there are none, there is one of R2.
fn turn_to_r2(r: &Random, list: &mut List, of_r1: &[usize]) {
    if of_r1.is_empty() {
        let width = r.within(1, 8);
        let start = make::past_checks(&list.checks, 400, width);
        let mut signal = narrow(r, list, 2, start, width);
        if list.checks.last().is_none_or(|&check| check < 320) {
            signal.check = 0;
        }
        list.signals.push(signal);
    } else {
        let from = r.of(of_r1);
        list.signals[from..].iter_mut().for_each(|s| s.kind = 2);
    }
}

/// Moves an R1 field over an end of its row, or out of all rows, or only by a bit, and what lies there out of its way; it stays under its check,
/// or comes under that of its first bit or of its last.
fn move_field(r: &Random, list: &mut List, number: usize) {
    let s = list.signals[number];
    let in_row = |row: &&Row| row.first <= s.start && s.start < row.end;
    let Some(row) = ROWS.iter().find(in_row) else {
        return;
    };
    let (first, end) = (ROWS[0].first, ROWS[ROWS.len() - 1].end);
    let start = r.of(&[
        row.end - r.below(s.width),
        row.first - r.below(s.width),
        s.start + 1,
        s.start - 1,
        first - r.within(1, s.width),
        end - r.below(s.width),
        r.within(end, 1_024 - s.width),
    ]);
    let overlaps = |other: &Signal| other.start < start + s.width && start < other.end();
    for other in (0..list.signals.len()).rev() {
        if other == number || list.signals[other].kind == 1 && overlaps(&list.signals[other]) {
            list.remove_signal(other);
        }
    }
    if list.is_free(1, start, s.width) {
        let check = match r.below(3) {
            0 => None,
            1 => row_check(list, start),
            _ => row_check(list, start + s.width - 1),
        };
        let check = check.unwrap_or(s.check);
        list.insert_signal(Signal { start, check, ..s });
    }
}

/// The number of the check of a bit's row, which may be new to the list; none where the bit is of no row.
fn row_check(list: &mut List, bit: u64) -> Option<u64> {
    let place = reference::check_place(bit).ok()?;
    if !list.checks.contains(&place) {
        list.insert_check(place);
    }
    Some(list.checks.partition_point(|&check| check <= place) as u64)
}

#[cfg(test)]
mod tests {
    use super::*;
    use reference::{judge_profile, Form, Profile};

    #[test]
    fn seventeen_rows() {
        assert_eq!(ROWS.len(), 17);
        assert!(ROWS.is_sorted_by(|a, b| a.end == b.first && a.place < b.place));
        assert_eq!([ROWS[0].first, ROWS[16].end], [8 * 46, 8 * 73]);
    }

    #[test]
    fn lists_made_in_a_profile_are_in_it() {
        for case in 0..5_000 {
            let r = Random::of_case(19, case);
            let r1 = r.one_in(2);
            let list = in_profile(&r, r1);
            let answers = [Profile::PlainCoach, Profile::DrivingTrailer]
                .map(|profile| judge_profile(profile, &list.octets(), Form::One).is_ok());
            let plain = list.signals.iter().all(|s| s.kind == 0);
            assert_eq!(answers, [plain, true], "{list:?}");
            assert!(plain || r1);
        }
    }
}
