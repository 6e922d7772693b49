//! Every signal of a vehicle and of a train, by one call; and beside it what a gateway does that has a call for one signal alone.

use crate::cases::{leak, one, Case, Run};
use crate::lists::{self, NOW};
use crate::proved::{self, Outcome, Said};
use crate::rust;
use reference::{Form, Reading, Refusal, VEHICLES};
use std::fmt::Debug;
use std::hint::black_box;

/// What is lent for writing: values and reasons.
type Lent = (Vec<u64>, Vec<u8>);

fn lent(entries: usize) -> Lent {
    (vec![0xA5; entries], vec![0xA5; entries])
}

fn repeated<T>(
    (mut values, mut reasons): Lent,
    call: impl Fn(&mut [u64], &mut [u8]) -> T + 'static,
) -> Run {
    Box::new(move |runs| {
        for _ in 0..runs {
            black_box(call(black_box(&mut values), black_box(&mut reasons)));
        }
    })
}

/// A call on both sides that reads so many signals; refused here if the two answer or write something else.
fn case<A: Debug + PartialEq, P: 'static, R: 'static>(
    name: &str,
    entries: usize,
    proved: (impl Fn(&mut [u64], &mut [u8]) -> P + 'static, fn(P) -> A),
    rust: (impl Fn(&mut [u64], &mut [u8]) -> R + 'static, fn(R) -> A),
) -> Case {
    let (mut ours, mut theirs) = (lent(entries), lent(entries));
    assert_eq!(
        proved.1(proved.0(&mut ours.0, &mut ours.1)),
        rust.1(rust.0(&mut theirs.0, &mut theirs.1)),
        "{name}"
    );
    assert!(ours == theirs, "{name}: something else is written");
    Case {
        name: name.to_string(),
        calls: 1,
        proved: repeated(lent(entries), proved.0),
        rust: repeated(lent(entries), rust.0),
    }
}

/// The signals of a list of the bench.
fn signals(list: &[u8]) -> usize {
    let counts = reference::judge(list, Form::One);
    counts.expect("the lists of the bench are good").signals
}

/// All of vehicle 63, by one call.
fn read_all(of: &str, list: &'static [u8], store: &'static [u8]) -> Case {
    let signals = signals(list);
    case(
        &format!("read all, {signals} signals of {of}"),
        signals,
        (
            move |values: &mut [u64], reasons: &mut [u8]| {
                let (list, store, now) = (black_box(list), black_box(store), black_box(NOW));
                proved::read_all(list, one(), store, now, black_box(63), values, reasons)
            },
            Outcome::said,
        ),
        (
            move |values: &mut [u64], reasons: &mut [u8]| {
                let (list, store, now) = (black_box(list), black_box(store), black_box(NOW));
                rust::read_all(list, one(), store, now, black_box(63), values, reasons)
            },
            |answer| answer,
        ),
    )
}

/// All of vehicle 63, by a call for each.
fn read_each(of: &str, list: &'static [u8], store: &'static [u8]) -> Case {
    let signals = signals(list);
    case(
        &format!("{signals} calls of read, {of}"),
        signals,
        (
            move |values: &mut [u64], reasons: &mut [u8]| {
                one_by_one(values, reasons, |signal| {
                    let (list, store, now) = (black_box(list), black_box(store), black_box(NOW));
                    proved::read(list, one(), store, now, black_box(63), signal).said()
                })
            },
            |()| (),
        ),
        (
            move |values: &mut [u64], reasons: &mut [u8]| {
                one_by_one(values, reasons, |signal| {
                    let (list, store, now) = (black_box(list), black_box(store), black_box(NOW));
                    rust::read(list, one(), store, now, black_box(63), signal)
                })
            },
            |()| (),
        ),
    )
}

#[inline(always)]
fn one_by_one(
    values: &mut [u64],
    reasons: &mut [u8],
    read: impl Fn(u64) -> Result<Reading, Refusal>,
) {
    for (signal, (value, reason)) in (0..).zip(values.iter_mut().zip(reasons)) {
        let reading = read(signal).expect("the lists of the bench are good");
        (*value, *reason) = (reading.value, reading.reason);
    }
}

/// All of every vehicle, by one call.
fn read_train(of: &str, list: &'static [u8], store: &'static [u8]) -> Case {
    case(
        &format!("read train, {VEHICLES} vehicles, {of}"),
        VEHICLES * signals(list),
        (
            move |values: &mut [u64], reasons: &mut [u8]| {
                let (list, store, now) = (black_box(list), black_box(store), black_box(NOW));
                proved::read_train(list, one(), store, now, black_box(63), values, reasons)
            },
            Outcome::said,
        ),
        (
            move |values: &mut [u64], reasons: &mut [u8]| {
                let (list, store, now) = (black_box(list), black_box(store), black_box(NOW));
                rust::read_train(list, one(), store, now, black_box(63), values, reasons)
            },
            |answer| answer,
        ),
    )
}

pub fn all() -> [Case; 4] {
    let (coach, heard) = (lists::COACH, leak(lists::store(lists::COACH_R1)));
    let longest = leak(lists::list(64, 5_000));
    let store = leak(lists::store(&lists::telegram()));
    [
        read_all("data/coach.list", coach, heard),
        read_each("data/coach.list", coach, heard),
        read_all("the longest list", longest, store),
        read_train("data/coach.list", coach, heard),
    ]
}

/// A list of any octets, read into areas of any lengths: the two sides answer alike and write the same.
pub fn read_alike(list: &[u8], form: Form, store: &[u8], of: u64, lens: [usize; 2]) {
    let areas = || (vec![0xA5; lens[0]], vec![0xA5; lens[1]]);
    let (mut ours, mut theirs): (Lent, Lent) = (areas(), areas());
    let proved = proved::read_all(list, form, store, NOW, of, &mut ours.0, &mut ours.1);
    let rust = rust::read_all(list, form, store, NOW, of, &mut theirs.0, &mut theirs.1);
    assert_eq!((proved.said(), &ours), (rust, &theirs));
    let proved = proved::read_train(list, form, store, NOW, of, &mut ours.0, &mut ours.1);
    let rust = rust::read_train(list, form, store, NOW, of, &mut theirs.0, &mut theirs.1);
    assert_eq!((proved.said(), &ours), (rust, &theirs));
}

/// No store, nobody, and areas that are too short or too long, alone and together.
pub fn refused_alike() {
    let (list, store) = (lists::COACH, &lists::store(lists::COACH_R1)[..]);
    let fits = signals(list);
    let lens = [fits - 1, fits, fits + 1, 2 * fits];
    for (of, values) in [0, 1, 2, 63, 64, u64::MAX]
        .iter()
        .flat_map(|&of| lens.map(|len| (of, len)))
    {
        for reasons in lens {
            for store in [store, &store[1..]] {
                read_alike(list, Form::One, store, of, [values, reasons]);
            }
        }
    }
}
