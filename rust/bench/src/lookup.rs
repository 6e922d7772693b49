//! Known codes by halving, and by the linear scan that stood before: the library of the commit that brought halving, and that of the commit
//! before, which differ in nothing else, beside today's. Before anything is timed, their answers are compared.

use crate::cases::Run;
use crate::lists::{self, NOW};
use crate::measure::{self, Times};
use crate::proved::{self, Said};
use crate::random::Random;
use crate::{head, time};
use reference::Form;
use std::hint::black_box;

/// A library of the history: two of its calls, and its lookup under the octets of an accepted list from the codes' count on.
macro_rules! library {
    ($name:ident, $judge:ident, $read:ident, $known:ident) => {
        mod $name {
            use super::Coded;
            use crate::proved::{answer, Judged, Read, To};

            extern "C" {
                fn $judge(to: To<Judged>, list: *const u8, list_len: usize);
                #[rustfmt::skip]
                fn $read(
                    to: To<Read>,
                    list: *const u8,
                    list_len: usize,
                    store: *const u8,
                    store_len: usize,
                    clock: u32,
                    vehicle: u64,
                    signal: u64,
                );
                fn $known(
                    octets: *const u8,
                    len: usize,
                    entries: usize,
                    signal: usize,
                    code: u64,
                ) -> u64;
            }

            // SAFETY: as in `proved`; `known` is asked under lists alone that all libraries accept.

            pub fn judge(list: &[u8]) -> Judged {
                answer(|to| unsafe { $judge(to, list.as_ptr(), list.len()) })
            }

            pub fn read(list: &[u8], store: &[u8], now: u32, vehicle: u64, signal: u64) -> Read {
                let (octets, slots) = (list.as_ptr(), store.as_ptr());
                answer(|to| unsafe {
                    $read(
                        to,
                        octets,
                        list.len(),
                        slots,
                        store.len(),
                        now,
                        vehicle,
                        signal,
                    )
                })
            }

            pub fn known(list: &Coded, signal: usize, code: u64) -> bool {
                let tail = &list.octets[list.codes_at..];
                unsafe { $known(tail.as_ptr(), tail.len(), list.entries, signal, code) != 0 }
            }
        }
    };
}

library!(linear, linear_df_judge, linear_df_read, linear_known);
library!(halving, halving_df_judge, halving_df_read, halving_known);

const ENTRIES: [usize; 4] = [1, 10, 100, 500];

/// A list of [`lists::coded`].
struct Coded {
    octets: Vec<u8>,
    signals: usize,
    entries: usize,
    /// Where the codes' count stands.
    codes_at: usize,
}

impl Coded {
    fn new(signals: usize, entries: &[(usize, usize, usize)]) -> Coded {
        Coded {
            octets: lists::coded(signals, entries),
            signals,
            entries: entries.len(),
            // Behind two counts, a check and the signals.
            codes_at: 6 + 16 * signals,
        }
    }
}

/// An R1 with these codes in the fields of [`lists::coded`].
fn telegram(codes: &[u16]) -> Vec<u8> {
    let mut telegram = vec![0x11, 1];
    telegram.resize(128, 0);
    telegram[40] = 0x10;
    for (octets, code) in telegram[50..].chunks_mut(2).zip(codes) {
        octets.copy_from_slice(&code.to_be_bytes());
    }
    telegram
}

/// Up to eight signals with up to 500 entries in all, ranges and gaps long or short; some signals have none.
fn any(random: &mut Random) -> Coded {
    let mut entries = Vec::new();
    let signals = 1 + random.below(8);
    for signal in 0..signals {
        let (most, scale) = (random.below(500 / signals + 1), 1 + random.below(300));
        let mut low = random.below(scale);
        for _ in 0..most {
            let high = low + random.below(scale);
            if high > 65_535 {
                break;
            }
            entries.push((signal, low, high));
            low = high + 2 + random.below(scale);
        }
    }
    Coded::new(signals, &entries)
}

/// Every code of every signal by the two lookups, and random codes by all reads: how many lookups and reads answered alike.
fn alike(lists: usize, reads: usize) -> (usize, usize) {
    let mut random = Random(13);
    let (mut looked_up, mut read) = (0, 0);
    for _ in 0..lists {
        let list = any(&mut random);
        let counts = reference::judge(&list.octets, Form::One);
        assert_eq!(
            counts.as_ref().map(|n| n.codes),
            Ok(list.entries),
            "accepted"
        );
        assert_eq!(linear::judge(&list.octets).said(), counts);
        assert_eq!(halving::judge(&list.octets).said(), counts);
        for signal in 0..list.signals {
            for code in 0..=65_536 {
                assert_eq!(
                    linear::known(&list, signal, code),
                    halving::known(&list, signal, code),
                    "signal {signal} code {code}"
                );
            }
            looked_up += 65_537;
        }
        for _ in 0..reads {
            let codes: Vec<u16> = (0..list.signals)
                .map(|_| random.below(65_536) as u16)
                .collect();
            let store = lists::store(&telegram(&codes));
            for signal in 0..list.signals as u64 {
                let answer = reference::read(&list.octets, Form::One, &store, NOW, 63, signal);
                assert_eq!(
                    linear::read(&list.octets, &store, NOW, 63, signal).said(),
                    answer
                );
                assert_eq!(
                    halving::read(&list.octets, &store, NOW, 63, signal).said(),
                    answer
                );
                assert_eq!(
                    proved::read(&list.octets, Form::One, &store, NOW, 63, signal).said(),
                    answer
                );
                read += 1;
            }
        }
    }
    (looked_up, read)
}

fn repeated<T>(call: impl Fn() -> T + 'static) -> Run {
    Box::new(move |runs| {
        for _ in 0..runs {
            black_box(call());
        }
    })
}

/// Today's calls, which are told a form besides.
fn judge(list: &[u8]) -> proved::Judged {
    proved::judge(list, black_box(Form::One))
}

fn read(list: &[u8], store: &[u8], now: u32, vehicle: u64, signal: u64) -> proved::Read {
    proved::read(list, black_box(Form::One), store, now, vehicle, signal)
}

fn judging(judge: fn(&[u8]) -> proved::Judged, list: &'static Coded) -> Run {
    repeated(move || judge(black_box(&list.octets)))
}

fn reading(
    read: fn(&[u8], &[u8], u32, u64, u64) -> proved::Read,
    list: &'static Coded,
    store: &'static [u8],
) -> Run {
    repeated(move || {
        read(
            black_box(&list.octets),
            black_box(store),
            black_box(NOW),
            63,
            0,
        )
    })
}

fn looking_up(known: fn(&Coded, usize, u64) -> bool, list: &'static Coded, code: u16) -> Run {
    repeated(move || known(black_box(list), 0, black_box(code.into())))
}

/// Another code at each call, so that no branch can be foretold.
fn looking_up_any(known: fn(&Coded, usize, u64) -> bool, list: &'static Coded) -> Run {
    let mut random = Random(22);
    let codes: Vec<u16> = (0..8_192)
        .map(|_| random.below(100 * list.entries) as u16)
        .collect();
    let mut next = 0;
    Box::new(move |runs| {
        for _ in 0..runs {
            black_box(known(black_box(list), 0, codes[next].into()));
            next = (next + 1) % codes.len();
        }
    })
}

/// The medians of a read, of the judging in it and of its lookup, by the linear scan and by halving; and of read and judging today.
struct Row {
    lookup: [f64; 2],
    read: [f64; 3],
    judge: [f64; 3],
}

fn row(list: &'static Coded, code: u16) -> Row {
    let store: &[u8] = Vec::leak(lists::store(&telegram(&[code])));
    let mut sides = [
        looking_up(linear::known, list, code),
        looking_up(halving::known, list, code),
        reading(linear::read, list, store),
        reading(halving::read, list, store),
        reading(read, list, store),
        judging(linear::judge, list),
        judging(halving::judge, list),
        judging(judge, list),
    ];
    let [l, h, rl, rh, rt, jl, jh, jt] =
        measure::each(sides.each_mut(), 1).map(|of: Times| of.median);
    Row {
        lookup: [l, h],
        read: [rl, rh, rt],
        judge: [jl, jh, jt],
    }
}

/// Where a code stands among so many entries of [`lists::ranges`], and the code.
fn places(entries: usize) -> Vec<(&'static str, u16)> {
    let within = |entry: usize| (100 * entry + 25) as u16;
    let gap = (100 * (entries / 2) + 75) as u16;
    match entries {
        1 => vec![("the entry", within(0)), ("nowhere", gap)],
        _ => vec![
            ("the first", within(0)),
            ("the middle", within(entries / 2)),
            ("the last", within(entries - 1)),
            ("nowhere", gap),
        ],
    }
}

fn share(part: f64, whole: f64) -> String {
    format!("{:.0} %", 100.0 * part / whole)
}

/// The table of times, and behind it that of the shares of a read whose code is in the last entry.
pub fn timed() {
    let (looked_up, read) = alike(200, 500);
    eprintln!("{looked_up} lookups and {read} reads: the same answers");
    head(&[
        "entries",
        "the code is in",
        "lookup, linear",
        "halving",
        "read, linear",
        "halving",
        "ratio",
        "read today",
    ]);
    let mut last = Vec::new();
    for entries in ENTRIES {
        let list: &Coded = Box::leak(Box::new(Coded::new(1, &lists::ranges(entries))));
        for (place, code) in places(entries) {
            let row = row(list, code);
            let times = [row.lookup[0], row.lookup[1], row.read[0], row.read[1]]
                .map(time)
                .join(" | ");
            println!(
                "| {entries} | {place} | {times} | {:.2} | {} |",
                row.read[1] / row.read[0],
                time(row.read[2])
            );
            if code as usize / 100 == entries - 1 && place != "nowhere" {
                last.push((entries, row));
            }
        }
        let mut sides = [
            looking_up_any(linear::known, list),
            looking_up_any(halving::known, list),
        ];
        let [linear, halving] = measure::each(sides.each_mut(), 1).map(|of| time(of.median));
        println!("| {entries} | another each time | {linear} | {halving} | | | | |");
    }
    println!();
    head(&[
        "entries",
        "linear: judging",
        "lookup",
        "halving: judging",
        "lookup",
        "today: judging",
    ]);
    for (entries, of) in last {
        let [linear, halving] = [0, 1].map(|tree| {
            [of.judge[tree], of.lookup[tree]]
                .map(|part| share(part, of.read[tree]))
                .join(" | ")
        });
        println!(
            "| {entries} | {linear} | {halving} | {} |",
            share(of.judge[2], of.read[2])
        );
    }
    println!();
}
