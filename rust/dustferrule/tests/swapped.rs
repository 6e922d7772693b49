//! The tests of `reference`, run on the proved library: the same names stand for the other implementation. `reference` has numbers where the
//! wrappers have a `Refusal` and a `Reason`; here they are numbers again.

// Every test file brings what the tests share; calls have the parameters that the header gives them.
#![allow(clippy::duplicate_mod, clippy::too_many_arguments)]

extern crate self as reference;

use dustferrule::Error;
pub use dustferrule::{
    property, Change, CodeRange, Counts, Doors, EReading, Entry, Form, Kind, Level, Members,
    Profile, Property, Remedies, Remedy, Rule, Shown, Side, State,
};

#[derive(Debug, Clone, Copy, PartialEq, Eq)]
pub struct Refusal {
    pub number: u8,
    pub carried: u64,
}

#[derive(Debug, Clone, Copy, PartialEq, Eq)]
pub struct Reading {
    pub value: u64,
    pub reason: u8,
}

#[derive(Debug, Clone, Copy, PartialEq)]
pub struct ShownReading {
    pub shown: Shown,
    pub reason: u8,
}

#[derive(Debug, Clone, Copy, PartialEq, Eq)]
pub enum Place {
    InRoute { route: usize, reason: u8 },
    Outside,
}

#[derive(Debug, Clone, Copy, PartialEq, Eq)]
pub struct WrongBit {
    pub octet: usize,
    pub bit: u8,
    pub place: Place,
}

#[derive(Debug, Clone, Copy, PartialEq, Eq)]
pub enum Finding {
    Right,
    Wrong(WrongBit),
}

#[derive(Debug, Clone, Copy, PartialEq, Eq)]
pub enum Extends {
    Yes,
    No,
    First(Refusal),
    Second(Refusal),
}

#[derive(Debug, Clone, Copy, PartialEq, Eq)]
pub enum Refused {
    First(Refusal),
    Second(Refusal),
}

fn plain(error: Error) -> Refusal {
    Refusal {
        number: error.refusal.number(),
        carried: error.carried,
    }
}

fn plain_of_two(refused: dustferrule::Refused) -> Refused {
    match refused {
        dustferrule::Refused::First(error) => Refused::First(plain(error)),
        dustferrule::Refused::Second(error) => Refused::Second(plain(error)),
    }
}

/// Each call with its refusal as a number.
macro_rules! calls {
    ($refusal:ty, $plain:ident: $($call:ident($($name:ident: $of:ty),*) -> $gives:ty;)+) => {
        $(pub fn $call($($name: $of),*) -> Result<$gives, $refusal> {
            dustferrule::$call($($name),*).map_err($plain)
        })+
    };
}

calls! { Refused, plain_of_two:
    signal_change(a: &[u8], form: Form, b: &[u8], other: Form, from: u64) -> Option<Change>;
    route_change(a: &[u8], form: Form, b: &[u8], other: Form, from: u64) -> Option<Change>;
    codes_gained(a: &[u8], form: Form, b: &[u8], other: Form, key: u64, from: u64) -> Option<CodeRange>;
}

calls! { Refusal, plain:
    judge(list: &[u8], form: Form) -> Counts;
    judge_profile(profile: Profile, list: &[u8], form: Form) -> Counts;
    signal_entry(list: &[u8], form: Form, signal: u64) -> Entry;
    find_signal(list: &[u8], form: Form, kind: u64, start: u64) -> u64;
    serial(list: &[u8], form: Form, signal: u64) -> u16;
    to_form_2(list: &[u8], out: &mut [u8]) -> ();
    to_form_1(list: &[u8], out: &mut [u8]) -> ();
    check_place(bit: u64) -> u64;
    take(store: &mut [u8], vehicle: u64, now: u32, telegram: &[u8]) -> ();
    gap(store: &[u8], vehicle: u64) -> u32;
    sweep(store: &mut [u8], now: u32) -> ();
    read_all(list: &[u8], form: Form, store: &[u8], now: u32, vehicle: u64, values: &mut [u64], reasons: &mut [u8]) -> ();
    read_train(list: &[u8], form: Form, store: &[u8], now: u32, last: u64, values: &mut [u64], reasons: &mut [u8]) -> ();
    marshal(list: &[u8], form: Form, store: &[u8], now: u32, bus: &mut [u8]) -> u64;
    compose(list: &[u8], form: Form, kind: u64, values: &[u64], marks: &[u8], out: &mut [u8]) -> ();
    relay(list: &[u8], form: Form, store: &[u8], now: u32, vehicle: u64, out: &mut [u8]) -> ();
    resolve(marks: &[u8], address: u64) -> Members;
    christen(records: &[u8], pairs: &[u8], marks: &mut [u8; 63]) -> usize;
    doors(list: &[u8], form: Form, store: &[u8], now: u32, marks: &[u8], address: u64) -> Doors;
    e_read(telegram: &[u8]) -> EReading;
    e_answer(telegram: &[u8], head: &[u8], status: u8, out: &mut [u8]) -> ();
    read_remedies(telegram: &[u8]) -> Remedies;
    remedy_block(telegram: &[u8], block: usize) -> Option<Remedy<'_>>;
    write_remedies(head: &[u8; 6], carried: &[u8; 12], language: u16, ordered: u8, keys: &[u8], lengths: &[u16], texts: &[u8], out: &mut [u8]) -> usize;
}

pub fn extends(a: &[u8], form: Form, b: &[u8], other: Form) -> Extends {
    match dustferrule::extends(a, form, b, other) {
        dustferrule::Extends::Yes => Extends::Yes,
        dustferrule::Extends::No => Extends::No,
        dustferrule::Extends::First(error) => Extends::First(plain(error)),
        dustferrule::Extends::Second(error) => Extends::Second(plain(error)),
    }
}

pub fn read(
    list: &[u8],
    form: Form,
    store: &[u8],
    now: u32,
    vehicle: u64,
    signal: u64,
) -> Result<Reading, Refusal> {
    let read = dustferrule::read(list, form, store, now, vehicle, signal).map_err(plain)?;
    Ok(Reading {
        value: read.value,
        reason: read.reason.number(),
    })
}

pub fn show(
    list: &[u8],
    form: Form,
    store: &[u8],
    now: u32,
    vehicle: u64,
    signal: u64,
    kind: Kind,
) -> Result<ShownReading, Refusal> {
    let read = dustferrule::show(list, form, store, now, vehicle, signal, kind).map_err(plain)?;
    Ok(ShownReading {
        shown: read.shown,
        reason: read.reason.number(),
    })
}

fn place(place: dustferrule::Place) -> Place {
    match place {
        dustferrule::Place::InRoute { route, reason } => Place::InRoute {
            route,
            reason: reason.number(),
        },
        dustferrule::Place::Outside => Place::Outside,
    }
}

pub fn check_step(
    list: &[u8],
    form: Form,
    steps: usize,
    last: &[u8],
    store: &[u8],
    now: u32,
    before: &[u8],
    after: &[u8],
) -> Result<Finding, Refusal> {
    let found = dustferrule::check_step(list, form, steps, last, store, now, before, after);
    Ok(match found.map_err(plain)? {
        dustferrule::Finding::Right => Finding::Right,
        dustferrule::Finding::Wrong(wrong) => Finding::Wrong(WrongBit {
            octet: wrong.octet,
            bit: wrong.bit,
            place: place(wrong.place),
        }),
    })
}

#[path = "../../reference/tests/bench.rs"]
mod bench;
#[path = "../../reference/tests/christening.rs"]
mod christening;
#[path = "../../reference/tests/comparing.rs"]
mod comparing;
#[path = "../../reference/tests/compose.rs"]
mod compose;
#[path = "../../reference/tests/doors.rs"]
mod doors;
#[path = "../../reference/tests/entry.rs"]
mod entry;
#[path = "../../reference/tests/etelegram.rs"]
mod etelegram;
#[path = "../../reference/tests/extends.rs"]
mod extends;
#[path = "../../reference/tests/form.rs"]
mod form;
#[path = "../../reference/tests/list.rs"]
mod list;
#[path = "../../reference/tests/marshal.rs"]
mod marshal;
#[path = "../../reference/tests/profile.rs"]
mod profile;
#[path = "../../reference/tests/reading.rs"]
mod reading;
#[path = "../../reference/tests/readings.rs"]
mod readings;
#[path = "../../reference/tests/recordings.rs"]
mod recordings;
#[path = "../../reference/tests/relay.rs"]
mod relay;
#[path = "../../reference/tests/remedies.rs"]
mod remedies;
#[path = "../../reference/tests/shown.rs"]
mod shown;
#[path = "../../reference/tests/store.rs"]
mod store;
#[path = "../../reference/tests/train.rs"]
mod train;
