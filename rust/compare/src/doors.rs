//! What a driver's desk may ask: lists with both door signals or nearly so, trains, and stores in which each vehicle says something of each side.

use std::mem;

use crate::case::{Call, Case};
use crate::damage::{damaged, mostly_good, said_form};
use crate::exhaustive::spoilt;
use crate::generate::{any_store, consist, no_store};
use crate::list::{Code, List, Signal, MOST};
use crate::random::Random;
use crate::{make, store};
use reference::{write_field, STORE, VEHICLES};

/// Octet 20 bits 4 and 5, as bit addresses.
pub const LEFT: u64 = 8 * 19 + 4;
pub const RIGHT: u64 = LEFT + 1;

/// What a vehicle says of a side.
#[derive(Debug, Clone, Copy, PartialEq, Eq)]
pub enum Says {
    Locked,
    Open,
    /// Its bit is not live.
    Nothing,
}

/// What is said of a side, by its number in C.
pub const NOT_KNOWN: u64 = 0;
pub const LOCKED: u64 = 1;
pub const OPEN: u64 = 2;

/// The numbers of the door signals, left and right, as far as the list has them.
pub fn doors_of(list: &List) -> [Option<usize>; 2] {
    [LEFT, RIGHT].map(|start| {
        let is_door = |s: &Signal| (s.kind, s.start, s.width) == (0, start, 1);
        list.signals.iter().position(is_door)
    })
}

/// Makes room in the octets that every type carries: the checks and the fields that have bits from `start` to before `end` go.
fn clear(list: &mut List, start: u64, end: u64) {
    for at in (0..list.checks.len()).rev() {
        if list.checks[at] < end && start < list.checks[at] + 2 {
            list.remove_check(at);
        }
    }
    for at in (0..list.signals.len()).rev() {
        let s = &list.signals[at];
        if s.kind == 0 && s.start < end && start < s.end() {
            list.remove_signal(at);
        }
    }
}

/// A door signal where there is room for it: mostly under a check of its own, else under any of the list's or none.
fn add_door(r: &Random, list: &mut List, start: u64) {
    let mut door = make::signal(r, &list.checks, 0, start, 1);
    door.since = r.of(&[1, 1, 1, 2, 9]);
    let at = list.insert_signal(door);
    let place = 2 * r.within(8, 159);
    if !r.one_in(4) && list.is_free(0, place, 2) {
        list.insert_check(place);
        let before = list.checks.partition_point(|&check| check < place);
        list.signals[at].check = before as u64 + 1;
    }
    if r.one_in(4) && list.codes.len() < MOST[2] {
        let (signal, (low, high)) = (at as u64, r.of(&[(0, 0), (1, 1), (0, 1)]));
        let before = list.codes.partition_point(|code| code.signal < signal);
        list.codes.insert(before, Code { signal, low, high });
    }
}

/// A good list with both door signals.
pub fn list(r: &Random) -> List {
    let mut list = make::list(r);
    clear(&mut list, LEFT, RIGHT + 1);
    while list.checks.len() > MOST[0] - 2 {
        list.remove_check(list.checks.len() - 1);
    }
    while list.signals.len() > MOST[1] - 2 {
        list.remove_signal(list.signals.len() - 1);
    }
    // No check of the right one comes to lie over the left one: it would have a bit of the right one too.
    add_door(r, &mut list, RIGHT);
    add_door(r, &mut list, LEFT);
    list
}

/// Takes a door away from a good list, or both, or puts something else at their places or beside them. It stays good.
fn misplace(r: &Random, list: &mut List) {
    let width = |list: &mut List, side: usize, width: u64| {
        if let Some(at) = doors_of(list)[side] {
            list.signals[at].width = width;
        }
    };
    match r.below(9) {
        0 => clear(list, LEFT, LEFT + 1),
        1 => clear(list, RIGHT, RIGHT + 1),
        2 => clear(list, LEFT, RIGHT + 1),
        3 => {
            clear(list, RIGHT, RIGHT + 1);
            width(list, 0, 2);
        }
        4 => {
            clear(list, RIGHT + 1, RIGHT + 2);
            width(list, 1, 2);
        }
        5 => shift(list, 1),
        6 => shift(list, -1),
        7 => {
            clear(list, LEFT - 4, RIGHT + 3);
            list.insert_signal(make::signal(r, &list.checks, 0, LEFT - 4, 8));
        }
        _ => of_one_type(r, list),
    }
}

/// Both doors, a bit early or late.
fn shift(list: &mut List, by: i64) {
    let doors = doors_of(list);
    let beside = if by < 0 { LEFT - 1 } else { RIGHT + 1 };
    let before = list.signals.len();
    clear(list, beside, beside + 1);
    // What lay before the doors and went has moved them up.
    let gone = if by < 0 {
        before - list.signals.len()
    } else {
        0
    };
    for at in doors.into_iter().flatten() {
        let s = &mut list.signals[at - gone];
        s.start = s.start.wrapping_add_signed(by);
    }
}

/// The doors as signals of R1 or R2 alone, as far into its own octets as the common ones are into the telegram, or the same bits of a later octet.
fn of_one_type(r: &Random, list: &mut List) {
    clear(list, LEFT, RIGHT + 1);
    let (kind, later) = (r.within(1, 2), r.of(&[304, 320]));
    for start in [LEFT + later, RIGHT + later] {
        if list.is_free(kind, start, 1) {
            list.insert_signal(make::signal(r, &list.checks, kind, start, 1));
        }
    }
}

/// What each of so many vehicles is to say of one side: some of them, chosen at random, one, all or none keep it from locked.
fn side(r: &Random, len: usize) -> Vec<Says> {
    let mut kept = match r.below(6) {
        0 => 0,
        1 => len.min(1),
        2 | 3 => len,
        _ => r.index(len + 1),
    };
    // How often such a one is open, in quarters.
    let open = r.of(&[0, 0, 1, 4, 4]);
    let says = |left: usize| match r.index(left) < kept {
        false => Says::Locked,
        true => {
            kept -= 1;
            match r.below(4) < open {
                true => Says::Open,
                false => Says::Nothing,
            }
        }
    };
    (1..=len).rev().map(says).collect()
}

/// What each of so many vehicles is to say of the left side and of the right.
pub fn sides(r: &Random, len: usize) -> Vec<[Says; 2]> {
    let left = side(r, len);
    let right = match r.one_in(3) {
        true => left.clone(),
        false => side(r, len),
    };
    left.into_iter()
        .zip(right)
        .map(|(left, right)| [left, right])
        .collect()
}

/// How a vehicle comes to say nothing of both sides.
enum Lost {
    Unheard,
    Late,
    Expired,
    Older,
    NoRTelegram,
    Marked,
}

/// A way that leaves nothing live of the doors of this list.
fn lost(r: &Random, doors: [&Signal; 2]) -> Lost {
    let each = |of: fn(&Signal) -> bool| doors.into_iter().all(of);
    match r.below(8) {
        0 if each(|s| s.limit != 0) => Lost::Late,
        1 if each(|s| s.limit != 0) => Lost::Expired,
        2 | 3 if each(|s| s.since > 1) => Lost::Older,
        4 => Lost::NoRTelegram,
        5..=7 if each(|s| s.check != 0) => Lost::Marked,
        _ => Lost::Unheard,
    }
}

/// A telegram that says so of both sides, under a list that has both doors; where the list does not let it, something near.
fn telegram(r: &Random, list: &List, doors: [&Signal; 2], says: [Says; 2]) -> Vec<u8> {
    let kind = r.within(1, 3);
    let mut telegram = store::telegram(r, list, kind);
    telegram[1] = r.of(&[list.version() as u8, 255]);
    for (s, says) in doors.into_iter().zip(says) {
        let (value, marks) = match says {
            Says::Locked => (1, [1, 1, 2]),
            Says::Open => (0, [1, 1, 2]),
            Says::Nothing => (r.below(2), [0, 3, 3]),
        };
        write_field(&mut telegram, s.start as usize, 1, value);
        if let Some(place) = list.place(s) {
            write_field(&mut telegram, place as usize, 2, r.of(&marks));
        }
    }
    telegram
}

/// Lets a vehicle say so of both sides at a clock value, under a list that has both doors.
fn hear(r: &Random, store: &mut [u8], vehicle: usize, list: &List, now: u32, says: [Says; 2]) {
    let [Some(left), Some(right)] = doors_of(list) else {
        return;
    };
    let doors = [left, right].map(|door| &list.signals[door]);
    let limits = doors.map(|s| s.limit as u32);
    let mut telegram = telegram(r, list, doors, says);
    let (mut heard, mut age) = match limits.into_iter().filter(|&limit| limit != 0).min() {
        Some(least) => (1, r.of(&[0, 0, least, r.below(least.into()) as u32])),
        None => (r.of(&[1, 1, 2]), r.word() as u32),
    };
    if says == [Says::Nothing; 2] {
        match lost(r, doors) {
            Lost::Unheard => heard = r.of(&[0, 0, 3, 128, 255]),
            Lost::Late => age = limits.into_iter().fold(0, u32::max) + 1,
            Lost::Expired => heard = 2,
            Lost::Older => telegram[1] = r.of(&[0, 1]),
            Lost::NoRTelegram => telegram[0] = r.of(&[0x10, 0x14, 0x01, 0x21, 0x31, 0xF3]),
            Lost::Marked => {}
        }
    }
    store::plant(store, vehicle, heard, now.wrapping_sub(age), &telegram);
}

/// A store in which the vehicles of a train say so; those behind them say nothing, or mostly that they are open.
fn stored(r: &Random, list: &List, now: u32, train: &[[Says; 2]]) -> Vec<u8> {
    let mut store = vec![0; STORE];
    for (vehicle, &says) in (1..=VEHICLES).zip(train) {
        hear(r, &mut store, vehicle, list, now, says);
    }
    if !r.one_in(3) {
        for vehicle in train.len() + 1..=VEHICLES {
            let says = r.of(&[Says::Open, Says::Open, Says::Open, Says::Locked]);
            hear(r, &mut store, vehicle, list, now, [says; 2]);
        }
    }
    store
}

/// Whom to ask: mostly all.
fn address(r: &Random, len: usize) -> u64 {
    let len = len as u64;
    match r.below(16) {
        0 => r.beyond(r.of(&[1, 64, 66])),
        1 => r.below(101),
        2 => r.of(&[len, len + 1]),
        3 => r.of(&[1, r.within(1, 63)]),
        4..=6 => r.of(&[64, 65, 67, 70, 92]),
        _ => 66,
    }
}

pub fn doors(r: &Random) -> Case {
    let len = match r.below(12) {
        0 => r.of(&[0, 64, 65, 128]),
        1..=3 => r.within(1, 63) as usize,
        4..=7 => r.within(40, 63) as usize,
        8 => VEHICLES,
        _ => r.within(1, 5) as usize,
    };
    let (mut list, now) = (list(r), store::clock(r));
    let store = stored(r, &list, now, &sides(r, len));
    if r.one_in(6) {
        misplace(r, &mut list);
    }
    let areas = vec![mostly_good(r, &list), any_store(r, store), consist(r, len)];
    let numbers = vec![said_form(r, &list), now.into(), address(r, len)];
    let mut case = Case::new(Call::Doors, areas, numbers);
    if r.one_in(6) {
        worsen(r, list, &mut case);
    }
    case
}

/// Several faults, which come together by chance too seldom.
fn worsen(r: &Random, mut list: List, case: &mut Case) {
    if r.one_in(2) {
        misplace(r, &mut list);
        case.areas[0] = list.octets();
    }
    if r.one_in(2) {
        case.areas[0] = match list.signals.is_empty() {
            true => damaged(r, list),
            false => spoilt(&list.octets())[r.within(1, 4) as usize].clone(),
        };
    }
    if r.one_in(2) {
        case.areas[1] = no_store(r, mem::take(&mut case.areas[1]));
    }
    let broken = || [1, 1, 0].into_iter().cycle().take(r.of(&[0, 2, 3, 64]));
    let unlisted = || r.of(&[0, 68, 93, u64::MAX, r.beyond(66)]);
    match r.below(5) {
        0 => case.areas[2] = broken().collect(),
        1 => case.numbers[2] = unlisted(),
        2 => (case.areas[2], case.numbers[2]) = (broken().collect(), unlisted()),
        3 => case.numbers[2] = (case.areas[2].len() as u64 + 1).min(63),
        _ => {}
    }
}

#[cfg(test)]
mod tests {
    use super::*;
    use reference::{Form, State};

    /// Made lists are good and have both doors; misplaced they are still good and lack one.
    #[test]
    fn lists_with_doors_and_without() {
        for number in 0..4_000 {
            let r = Random::of_case(20, number);
            let mut list = list(&r);
            let shown = |list: &List| {
                let (octets, form) = (list.octets(), Form::of(list.form));
                reference::doors(&octets, form, &[0; STORE], 0, &[0], 66)
            };
            let good = shown(&list).map(|doors| [doors.left.state, doors.right.state]);
            assert_eq!(good, Ok([State::Unknown; 2]));
            misplace(&r, &mut list);
            assert_eq!(shown(&list).map_err(|refusal| refusal.number), Err(35));
        }
    }
}
