//! The calls that are measured: each on both sides, with the same octets lent for reading and an area of its own lent for writing.

use crate::lists::{self, Handed, Step, NOW, STAMP};
use crate::proved::{self, Said};
use crate::readings;
use crate::rust;
use reference::{
    Change, CodeRange, Finding, Form, Kind, Profile, Property, Remedy, Shown, ShownReading, State,
};
use std::fmt::Debug;
use std::hint::black_box;

/// One side of a call, to be made so many times. What was lent for writing is not cleared between two calls.
pub type Run = Box<dyn FnMut(u64)>;

pub struct Case {
    pub name: String,
    /// How many calls one run makes.
    pub calls: u64,
    pub proved: Run,
    pub rust: Run,
}

/// How many fields one run reads or writes, each at another bit of an octet.
const FIELDS: usize = 64;

/// The blocks and the octets of the longest telegram of remedy texts.
const BLOCKS: usize = 8;
const LONGEST: usize = 2_110;

pub fn leak<T>(of: Vec<T>) -> &'static [T] {
    Vec::leak(of)
}

fn repeated<T>(mut lent: Vec<u8>, call: impl Fn(&mut [u8]) -> T + 'static) -> Run {
    Box::new(move |runs| {
        for _ in 0..runs {
            black_box(call(black_box(&mut lent)));
        }
    })
}

/// The loop around a call, without one.
pub fn nothing() -> Run {
    repeated(vec![], |_| ())
}

/// A call on both sides; refused here if the two answer or write something else.
fn case<A: Debug + PartialEq, P: 'static, R: 'static>(
    name: &str,
    lent: Vec<u8>,
    proved: (impl Fn(&mut [u8]) -> P + 'static, fn(P) -> A),
    rust: (impl Fn(&mut [u8]) -> R + 'static, fn(R) -> A),
) -> Case {
    let (mut ours, mut theirs) = (lent.clone(), lent.clone());
    assert_eq!(
        proved.1(proved.0(&mut ours)),
        rust.1(rust.0(&mut theirs)),
        "{name}"
    );
    assert!(ours == theirs, "{name}: something else is written");
    Case {
        name: name.to_string(),
        calls: 1,
        proved: repeated(lent.clone(), proved.0),
        rust: repeated(lent, rust.0),
    }
}

/// As [`case`], where the proved side's answer is said as the other side says it.
fn said<P: Said + 'static>(
    name: &str,
    lent: Vec<u8>,
    proved: impl Fn(&mut [u8]) -> P + 'static,
    rust: impl Fn(&mut [u8]) -> P::As + 'static,
) -> Case
where
    P::As: 'static,
{
    case(name, lent, (proved, P::said), (rust, |answer| answer))
}

/// Under the longest list: judged, extended by one with other time limits, and marshalled, where every route is live.
fn longest() -> [Case; 3] {
    let list = leak(lists::list(64, 5_000));
    let other = leak(lists::list(64, 6_000));
    let store = leak(lists::store(&lists::telegram()));
    let live = reference::marshal(list, Form::One, store, NOW, &mut [0; 256]);
    assert_eq!(live.ok(), Some(512), "every route is live");
    let cases = [
        judge("judge", list, Form::One),
        said(
            "extends",
            vec![],
            move |_| proved::extends(black_box(list), one(), black_box(other), one()),
            move |_| rust::extends(black_box(list), one(), black_box(other), one()),
        ),
        marshal("marshal", list, store),
    ];
    cases.map(|mut case| {
        case.name += &format!(", list of {} octets", list.len());
        case
    })
}

/// Form 1, which no side may know before it is called.
#[inline(always)]
pub fn one() -> Form {
    black_box(Form::One)
}

fn judge(name: &str, list: &'static [u8], form: Form) -> Case {
    said(
        name,
        vec![],
        move |_| proved::judge(black_box(list), black_box(form)),
        move |_| rust::judge(black_box(list), black_box(form)),
    )
}

/// By the profile that allows R1 signals, a list that is in it.
fn judge_profile() -> Case {
    let list = leak(lists::narrow());
    let profile = Profile::DrivingTrailer;
    let judged = reference::judge_profile(profile, list, Form::One);
    judged.expect("the list of the bench is in the profile");
    said(
        "judge profile, 64 signals of a driving trailer",
        vec![],
        move |_| proved::judge_profile(black_box(profile), black_box(list), one()),
        move |_| rust::judge_profile(black_box(profile), black_box(list), one()),
    )
}

/// One call on two equal lists, which looks at every signal of both; and two lists compared whole, half of whose signals and routes differ.
fn comparing() -> [Case; 2] {
    let list = leak(lists::list(64, 5_000));
    let same = leak(lists::list(64, 5_000));
    let other = leak(lists::half_changed());
    let len = list.len();
    [
        said(
            &format!("signal change, none in two lists of {len} octets"),
            vec![],
            move |_| proved::signal_change(black_box(list), one(), black_box(same), one(), 0),
            move |_| rust::signal_change(black_box(list), one(), black_box(same), one(), 0),
        ),
        case(
            &format!("compare whole, two lists of {len} octets, half of which differs"),
            vec![],
            (move |_: &mut [u8]| proved_whole(list, other), |sum| sum),
            (move |_: &mut [u8]| rust_whole(list, other), |sum| sum),
        ),
    ]
}

pub fn proved_whole(a: &[u8], b: &[u8]) -> Whole {
    let good = "the lists of the bench are good";
    let gained = |a, b, key, from| proved::codes_gained(a, one(), b, one(), key, from).said();
    whole(
        |from| {
            proved::signal_change(black_box(a), one(), black_box(b), one(), from)
                .said()
                .expect(good)
        },
        |from| {
            proved::route_change(black_box(a), one(), black_box(b), one(), from)
                .said()
                .expect(good)
        },
        |key, from| gained(black_box(a), black_box(b), key, from).expect(good),
        |key, from| gained(black_box(b), black_box(a), key, from).expect(good),
    )
}

pub fn rust_whole(a: &[u8], b: &[u8]) -> Whole {
    let good = "the lists of the bench are good";
    let gained = |a, b, key, from| rust::codes_gained(a, one(), b, one(), key, from);
    whole(
        |from| rust::signal_change(black_box(a), one(), black_box(b), one(), from).expect(good),
        |from| rust::route_change(black_box(a), one(), black_box(b), one(), from).expect(good),
        |key, from| gained(black_box(a), black_box(b), key, from).expect(good),
        |key, from| gained(black_box(b), black_box(a), key, from).expect(good),
    )
}

/// How many signals and routes differ, how many ranges of codes were gained or lost, and all that was given, as one number.
#[derive(Debug, Default, PartialEq)]
pub struct Whole {
    signals: u64,
    routes: u64,
    ranges: u64,
    sum: u64,
}

/// Every difference, each asked for behind the one before: signals, each with the codes that it gained and lost, then routes.
#[inline(always)]
fn whole(
    signal: impl Fn(u64) -> Option<Change>,
    route: impl Fn(u64) -> Option<Change>,
    gained: impl Fn(u64, u64) -> Option<CodeRange>,
    lost: impl Fn(u64, u64) -> Option<CodeRange>,
) -> Whole {
    let mut of = Whole::default();
    let mut from = 0;
    while let Some(change) = signal(from) {
        from = change.key + 1;
        of.signals += 1;
        of.add([change.key, change.first, change.second]);
        let ranges = [
            all_ranges(change.key, &gained),
            all_ranges(change.key, &lost),
        ];
        for (count, sum) in ranges {
            of.ranges += count;
            of.add([count, sum, 0]);
        }
    }
    from = 0;
    while let Some(change) = route(from) {
        from = change.key + 1;
        of.routes += 1;
        of.add([change.key, change.first, change.second]);
    }
    of
}

impl Said for Whole {
    type As = Whole;
    fn said(self) -> Whole {
        self
    }
}

impl Whole {
    #[inline(always)]
    fn add(&mut self, numbers: [u64; 3]) {
        for number in numbers {
            self.sum = self.sum.rotate_left(7) ^ number;
        }
    }
}

/// How many ranges a signal has, and their ends as one number.
#[inline(always)]
fn all_ranges(key: u64, next: impl Fn(u64, u64) -> Option<CodeRange>) -> (u64, u64) {
    let (mut count, mut sum, mut from) = (0, 0u64, 0);
    while let Some(range) = next(key, from) {
        from = u64::from(range.low) + 1;
        sum = sum.rotate_left(7) ^ u64::from(range.low) ^ u64::from(range.high) << 32;
        count += 1;
    }
    (count, sum)
}

/// The longest list judged in form 2, its last serial number, and the list moved from each form to the other.
fn forms() -> [Case; 4] {
    let plain = leak(lists::list(64, 5_000));
    let wide = leak(lists::list_in_form_2(64, 5_000));
    let of = |call: &str, list: &[u8]| format!("{call}, list of {} octets", list.len());
    [
        judge(&of("judge in form 2", wide), wide, Form::Two),
        said(
            "serial number, the last signal of the longest list",
            vec![],
            move |_| proved::serial(black_box(wide), black_box(Form::Two), black_box(255)),
            move |_| rust::serial(black_box(wide), black_box(Form::Two), black_box(255)),
        ),
        said(
            &of("move to form 2", plain),
            vec![0xA5; wide.len()],
            move |out| proved::to_form_2(black_box(plain), out),
            move |out| rust::to_form_2(black_box(plain), out),
        ),
        said(
            &of("move to form 1", wide),
            vec![0xA5; plain.len()],
            move |out| proved::to_form_1(black_box(wide), out),
            move |out| rust::to_form_1(black_box(wide), out),
        ),
    ]
}

fn marshal(name: &str, list: &'static [u8], store: &'static [u8]) -> Case {
    said(
        name,
        vec![0xA5; 256],
        move |data| {
            proved::marshal(
                black_box(list),
                one(),
                black_box(store),
                black_box(NOW),
                data,
            )
        },
        move |data| {
            rust::marshal(
                black_box(list),
                one(),
                black_box(store),
                black_box(NOW),
                data,
            )
        },
    )
}

/// A step, the second of its recording, from octets A5 to what is marshalled into them; and with its last bit wrong, which lies in no route.
fn checked(of: &str, list: &'static [u8], store: &'static [u8]) -> [Case; 2] {
    let before = leak(vec![0xA5; 256]);
    let mut after = before.to_vec();
    let live = reference::marshal(list, Form::One, store, NOW, &mut after);
    assert!(live.is_ok_and(|live| live > 0), "{of}: a route is live");
    let right = leak(after.clone());
    after[255] ^= 1;
    [("right", right), ("a wrong last bit", leak(after))].map(|(how, after)| {
        let step = Step {
            store,
            now: NOW,
            before,
            after,
        };
        let found = rust::check_step(list, Form::One, 1, before, step);
        assert_eq!(found == Ok(Finding::Right), how == "right", "{of}");
        said(
            &format!("check step, {how}, {of}"),
            vec![],
            move |_| {
                proved::check_step(
                    black_box(list),
                    one(),
                    black_box(1),
                    black_box(before),
                    black_box(step),
                )
            },
            move |_| {
                rust::check_step(
                    black_box(list),
                    one(),
                    black_box(1),
                    black_box(before),
                    black_box(step),
                )
            },
        )
    })
}

/// Under a real list, and under the longest.
fn checked_steps() -> Vec<Case> {
    let coach = leak(lists::store(lists::COACH_R1));
    let longest = leak(lists::list(64, 5_000));
    let store = leak(lists::store(&lists::telegram()));
    let of = format!("list of {} octets", longest.len());
    [
        checked("data/coach.list", lists::COACH, coach),
        checked(&of, longest, store),
    ]
    .into_iter()
    .flatten()
    .collect()
}

/// A signal of vehicle 63.
fn read(name: &str, list: &'static [u8], store: &'static [u8], signal: u64) -> Case {
    said(
        name,
        vec![],
        move |_| {
            proved::read(
                black_box(list),
                one(),
                black_box(store),
                black_box(NOW),
                black_box(63),
                black_box(signal),
            )
        },
        move |_| {
            rust::read(
                black_box(list),
                one(),
                black_box(store),
                black_box(NOW),
                black_box(63),
                black_box(signal),
            )
        },
    )
}

/// The same, shown.
fn show(name: &str, list: &'static [u8], store: &'static [u8], signal: u64, kind: Kind) -> Case {
    said(
        name,
        vec![],
        move |_| {
            proved::show(
                black_box(list),
                one(),
                black_box(store),
                black_box(NOW),
                black_box(63),
                black_box(signal),
                black_box(kind),
            )
        },
        move |_| {
            rust::show(
                black_box(list),
                one(),
                black_box(store),
                black_box(NOW),
                black_box(63),
                black_box(signal),
                black_box(kind),
            )
        },
    )
}

/// The actual speed, in the octets 11-12 of every type, under a real list: read, and shown.
fn speeds() -> [Case; 2] {
    let list = lists::COACH;
    let store = leak(lists::store(lists::COACH_R1));
    let signal = reference::find_signal(list, Form::One, 0, 80).expect("the list has a speed");
    assert_eq!(
        reference::show(list, Form::One, store, NOW, 63, signal, Kind::Speed),
        Ok(ShownReading {
            shown: Shown::Speed(160.0),
            reason: 0
        })
    );
    [
        read("read, the speed in data/coach.list", list, store, signal),
        show(
            "show, the speed in data/coach.list",
            list,
            store,
            signal,
            Kind::Speed,
        ),
    ]
}

fn reads() -> Vec<Case> {
    let longest = leak(lists::list(64, 5_000));
    let store = leak(lists::store(&lists::telegram()));
    let coded = leak(lists::coded(1, &lists::ranges(500)));
    // The last code of the last entry.
    let mut telegram = vec![0x11, 1];
    telegram.resize(128, 0);
    telegram[40] = 0x10;
    telegram[50..52].copy_from_slice(&49_950u16.to_be_bytes());
    let heard = leak(lists::store(&telegram));
    assert_eq!(
        reference::read(coded, Form::One, heard, NOW, 1, 0).map(|r| r.reason),
        Ok(0)
    );
    vec![
        read("read, a signal with 500 code entries", coded, heard, 0),
        read(
            "read, the last signal of the longest list",
            longest,
            store,
            255,
        ),
    ]
}

fn compose(name: &str, list: &'static [u8], values: Vec<u64>, marks: Vec<u8>) -> Case {
    let (values, marks) = (leak(values), leak(marks));
    said(
        name,
        vec![0xA5; 128],
        move |out| {
            proved::compose(
                black_box(list),
                one(),
                black_box(1),
                black_box(values),
                black_box(marks),
                out,
            )
        },
        move |out| {
            rust::compose(
                black_box(list),
                one(),
                black_box(1),
                black_box(values),
                black_box(marks),
                out,
            )
        },
    )
}

/// The telegram of vehicle 63 passed on: every signal is live, so that every check keeps its mark.
fn relay(name: &str, list: &'static [u8], telegram: &[u8]) -> Case {
    let store = leak(lists::store(telegram));
    let mut out = vec![0; telegram.len()];
    let relayed = reference::relay(list, Form::One, store, NOW, 63, &mut out);
    relayed.expect("the telegram of the bench is relayed");
    assert_eq!(out, telegram, "{name}");
    said(
        name,
        vec![0xA5; telegram.len()],
        move |out| {
            proved::relay(
                black_box(list),
                one(),
                black_box(store),
                black_box(NOW),
                black_box(63),
                out,
            )
        },
        move |out| {
            rust::relay(
                black_box(list),
                one(),
                black_box(store),
                black_box(NOW),
                black_box(63),
                out,
            )
        },
    )
}

/// Fields of 64 bits, one from each bit of an octet: all but the first lie over nine octets.
fn wide() -> [Case; 3] {
    let list = leak(lists::wide());
    let values = lists::wide_values();
    let mut telegram = vec![0; 128];
    let composed = reference::compose(list, Form::One, 1, &values, &[], &mut telegram);
    composed.expect("the telegram of wide fields is composed");
    let store = leak(lists::store(&telegram));
    [
        read("read, a field of 64 bits", list, store, 3),
        marshal("marshal, 24 routes of 64 bits", list, store),
        compose("compose R1, 8 signals of 64 bits", list, values, vec![]),
    ]
}

fn take(name: &str, telegram: Vec<u8>) -> Case {
    let telegram = leak(telegram);
    said(
        name,
        vec![0xA5; reference::STORE],
        move |store| proved::take(store, black_box(32), black_box(STAMP), black_box(telegram)),
        move |store| rust::take(store, black_box(32), black_box(STAMP), black_box(telegram)),
    )
}

/// Of a vehicle that was heard twice.
fn gap() -> Case {
    let mut store = lists::store(&lists::telegram());
    let again = reference::take(&mut store, 32, NOW, &lists::telegram());
    again.expect("the telegram of the bench is taken again");
    let store = leak(store);
    said(
        "gap",
        vec![],
        move |_| proved::gap(black_box(store), black_box(32)),
        move |_| rust::gap(black_box(store), black_box(32)),
    )
}

/// What a sweep marks stays marked: all heard again, for the next.
#[inline(always)]
fn hear(store: &mut [u8]) {
    for slot in store.chunks_mut(reference::SLOT) {
        slot[reference::HEARD] = 1;
    }
}

/// A sweep of a full store in which nothing is too old, and of one in which all is, and is heard again before each call.
fn sweeps() -> [Case; 2] {
    let store = || lists::store(&lists::telegram());
    let late = STAMP + 600_001;
    [
        said(
            "sweep, 63 vehicles in time",
            store(),
            |store| proved::sweep(store, black_box(NOW)),
            |store| rust::sweep(store, black_box(NOW)),
        ),
        said(
            "sweep, 63 vehicles expire",
            store(),
            move |store| {
                hear(store);
                proved::sweep(store, black_box(late))
            },
            move |store| {
                hear(store);
                rust::sweep(store, black_box(late))
            },
        ),
    ]
}

fn e_read(name: &str, code: u16) -> Case {
    let mut telegram = vec![0; 9];
    telegram[6..8].copy_from_slice(&code.to_be_bytes());
    let telegram = leak(telegram);
    said(
        name,
        vec![],
        move |_| proved::e_read(black_box(telegram)),
        move |_| rust::e_read(black_box(telegram)),
    )
}

/// The marks that are written.
fn marks(lent: &mut [u8]) -> &mut [u8; 63] {
    lent.try_into().expect("63 octets are lent")
}

/// The longest train built from its records, and every row of table E.1 asked of one of them.
fn christening() -> [Case; 2] {
    let (records, pairs) = lists::records();
    let mut written = [0xA5; 63];
    let built = reference::christen(&records, &pairs, &mut written);
    assert_eq!(built, Ok(63), "the train of the bench is built");
    assert_eq!(written[..], lists::train(), "it is the train of the bench");
    let (records, pairs) = (leak(records), leak(pairs));
    let record: &[u8; 56] = records.last_chunk().expect("there is a record");
    [
        said(
            "christen 63 vehicles",
            vec![0xA5; 63],
            move |to| proved::christen(black_box(records), black_box(pairs), marks(to)),
            move |to| rust::christen(black_box(records), black_box(pairs), marks(to)),
        ),
        case(
            "properties, all 144 rows of a record",
            vec![],
            (move |_: &mut [u8]| proved_rows(record), |sum| sum),
            (move |_: &mut [u8]| rust_rows(record), |sum| sum),
        ),
    ]
}

fn proved_rows(record: &[u8; 56]) -> u64 {
    all_rows(|row| proved::property(black_box(record), row).said())
}

fn rust_rows(record: &[u8; 56]) -> u64 {
    all_rows(|row| rust::property(black_box(record), row))
}

/// Every row, each by a call, as one number.
#[inline(always)]
fn all_rows(property: impl Fn(u32) -> Option<Property>) -> u64 {
    (1..=132)
        .chain(141..=152)
        .filter_map(property)
        .fold(0, |sum: u64, row| {
            let place = u64::from(row.octet) << 8 | u64::from(row.bit);
            sum.rotate_left(7) ^ place << 8 ^ (row.level as u64) << 1 ^ u64::from(row.holds)
        })
}

/// The first so many vehicles of the train, all asked, under a real list: both sides are locked.
fn doors(vehicles: usize) -> Case {
    let list = lists::COACH;
    let store = leak(lists::store(lists::COACH_R1));
    let marks = &leak(lists::train())[..vehicles];
    let shown = reference::doors(list, Form::One, store, NOW, marks, 66);
    let states = shown.map(|doors| [doors.left.state, doors.right.state]);
    assert_eq!(states, Ok([State::Locked; 2]), "the train is locked");
    said(
        &format!("doors of {vehicles} vehicles, data/coach.list"),
        vec![],
        move |_| {
            proved::doors(
                black_box(list),
                one(),
                black_box(store),
                black_box(NOW),
                black_box(marks),
                black_box(66),
            )
        },
        move |_| {
            rust::doors(
                black_box(list),
                one(),
                black_box(store),
                black_box(NOW),
                black_box(marks),
                black_box(66),
            )
        },
    )
}

/// The longest telegram of remedy texts: read, each of its blocks asked for, and written.
fn remedies() -> [Case; 3] {
    let handed: &Handed = Box::leak(Box::new(lists::remedies()));
    let mut telegram = vec![0; LONGEST];
    let written = rust::write_remedies(handed, &mut telegram);
    assert_eq!(written, Ok(LONGEST), "the texts of the bench are written");
    let telegram = leak(telegram);
    [
        said(
            "read remedies, 8 texts of 254 octets",
            vec![],
            move |_| proved::read_remedies(black_box(telegram)),
            move |_| rust::read_remedies(black_box(telegram)),
        ),
        case(
            "remedy blocks, all of 8 texts of 254 octets",
            vec![],
            (move |_: &mut [u8]| proved_blocks(telegram), |sum| sum),
            (move |_: &mut [u8]| rust_blocks(telegram), |sum| sum),
        ),
        said(
            "write remedies, 8 texts of 254 octets",
            vec![0xA5; LONGEST],
            move |out| proved::write_remedies(black_box(handed), out),
            move |out| rust::write_remedies(black_box(handed), out),
        ),
    ]
}

fn proved_blocks(telegram: &[u8]) -> u64 {
    all_blocks(|block| {
        let found = proved::remedy_block(black_box(telegram), block).said();
        found.expect("the telegram of the bench is good")
    })
}

fn rust_blocks(telegram: &[u8]) -> u64 {
    all_blocks(|block| {
        let found = rust::remedy_block(black_box(telegram), block);
        placed(telegram, found.expect("the telegram of the bench is good"))
    })
}

/// A block by where its text stands, as the proved library has it.
#[inline(always)]
fn placed(telegram: &[u8], block: Option<Remedy>) -> Option<proved::Block> {
    let start = |text: &[u8]| text.as_ptr().addr() - telegram.as_ptr().addr();
    block.map(|block| (block.key, start(block.text), block.text.len()))
}

/// Every block, each by a call, as one number.
#[inline(always)]
fn all_blocks(block: impl Fn(usize) -> Option<proved::Block>) -> u64 {
    (0..BLOCKS)
        .filter_map(block)
        .fold(0, |sum, (key, at, size)| {
            let sum = sum.rotate_left(7) ^ u64::from(key);
            sum.rotate_left(7) ^ (at as u64) << 32 ^ size as u64
        })
}

fn check_place(bit: u64) -> Case {
    said(
        "check place, the last row of the grouping",
        vec![],
        move |_| proved::check_place(black_box(bit)),
        move |_| rust::check_place(black_box(bit)),
    )
}

fn resolve(name: &str, address: u64) -> Case {
    let marks = leak(lists::train());
    said(
        name,
        vec![],
        move |_| proved::resolve(black_box(marks), black_box(address)),
        move |_| rust::resolve(black_box(marks), black_box(address)),
    )
}

/// What is read at each start, as one number.
#[inline(always)]
fn each_start(mut read: impl FnMut(usize) -> u64) -> u64 {
    (0..FIELDS).fold(0, |sum: u64, number| sum.rotate_left(1) ^ read(15 * number))
}

fn read_fields(width: usize) -> Case {
    let octets = leak((0..128).map(|octet| octet * 37 + 11).collect());
    let case = case(
        &format!("field read, width {width}"),
        vec![],
        (
            move |_: &mut [u8]| {
                each_start(|start| proved::read_field(octets, start, black_box(width)))
            },
            |sum| sum,
        ),
        (
            move |_: &mut [u8]| {
                each_start(|start| rust::read_field(octets, start, black_box(width)))
            },
            |sum| sum,
        ),
    );
    Case {
        calls: FIELDS as u64,
        ..case
    }
}

fn write_fields(width: usize) -> Case {
    let value = 0x9E37_79B9_7F4A_7C15 >> (64 - width);
    let case = case(
        &format!("field write, width {width}"),
        vec![0xA5; 128],
        (
            move |octets: &mut [u8]| {
                each_start(|start| {
                    proved::write_field(octets, start, black_box(width), value);
                    0
                })
            },
            |sum| sum,
        ),
        (
            move |octets: &mut [u8]| {
                each_start(|start| {
                    rust::write_field(octets, start, black_box(width), value);
                    0
                })
            },
            |sum| sum,
        ),
    );
    Case {
        calls: FIELDS as u64,
        ..case
    }
}

/// The two sides refuse alike, too: a wrong layout of an answer does not go unnoticed.
pub fn refused_alike() {
    let lists = [
        (Form::One, lists::list(8, 5_000)),
        (Form::Two, lists::list_in_form_2(8, 5_000)),
    ];
    for (form, list) in lists {
        refused_by_profiles(form, &list);
        refused_alike_in(form, list);
    }
    remedies_refused_alike(&lists::remedies());
    records_refused_alike();
    steps_refused_alike();
    doors_refused_alike();
    readings::refused_alike();
}

/// Steps too many, other data, too few of them, no store; and each bit of the data wrong alone.
fn steps_refused_alike() {
    let (list, store) = (lists::COACH, &lists::store(lists::COACH_R1)[..]);
    let before = &[0xA5; 20][..];
    let mut after = before.to_vec();
    let live = reference::marshal(list, Form::One, store, NOW, &mut after);
    live.expect("the data of the bench are marshalled");
    let alike = |steps: usize, store: &[u8], before: &[u8], after: &[u8]| {
        for last in [before, &before[1..], &[]] {
            let step = Step {
                store,
                now: NOW,
                before,
                after,
            };
            let wanted = rust::check_step(list, Form::One, steps, last, step);
            let proved = proved::check_step(list, Form::One, steps, last, step);
            assert_eq!(proved.said(), wanted);
        }
    };
    for steps in [0, 1, 999, 1_000, usize::MAX] {
        for (before, after) in [
            (before, &after[..]),
            (before, &after[1..]),
            (&before[3..], &after),
        ] {
            alike(steps, store, before, after);
            alike(steps, &store[1..], before, after);
        }
    }
    for bit in 0..8 * after.len() {
        let mut after = after.clone();
        after[bit / 8] ^= 0x80 >> (bit % 8);
        alike(1, store, before, &after);
    }
}

/// Trains, some of which are refused, at every address, under a list with doors and one without; some vehicles are not locked.
fn doors_refused_alike() {
    let mut store = lists::store(lists::COACH_R1);
    for slot in store.chunks_mut(reference::SLOT).step_by(7) {
        slot[reference::HEAD + 19] ^= 0x08;
    }
    for slot in store.chunks_mut(reference::SLOT).skip(30).step_by(5) {
        slot[reference::HEARD] = 0;
    }
    let trains = [&[][..], &lists::train(), &[2; 64], &[1, 1]].map(<[u8]>::to_vec);
    for list in [lists::COACH, &lists::list(8, 5_000)] {
        for (marks, address) in trains.iter().flat_map(|m| (0..=100).map(move |a| (m, a))) {
            for store in [&store, &store[1..]] {
                let wanted = reference::doors(list, Form::One, store, NOW, marks, address);
                let proved = proved::doors(list, Form::One, store, NOW, marks, address);
                assert_eq!(proved.said(), wanted);
            }
        }
    }
}

/// Records that are cut, with as many pairs as there were; and rows that there are not.
fn records_refused_alike() {
    let (records, pairs) = lists::records();
    for cut in 0..records.len() {
        let (mut ours, mut theirs) = ([0xA5; 63], [0xA5; 63]);
        let pairs = &pairs[..cut.div_ceil(56)];
        let refused = reference::christen(&records[..cut], pairs, &mut theirs);
        let proved = proved::christen(&records[..cut], pairs, &mut ours);
        assert_eq!((proved.said(), ours), (refused, theirs));
    }
    let record: &[u8; 56] = records.last_chunk().expect("there is a record");
    for row in 0..=200 {
        let wanted = reference::property(record, row);
        assert_eq!(proved::property(record, row).said(), wanted);
    }
}

/// A telegram of remedy texts that is cut, and one that has no room.
fn remedies_refused_alike(handed: &Handed) {
    let mut telegram = vec![0; LONGEST];
    assert_eq!(rust::write_remedies(handed, &mut telegram), Ok(LONGEST));
    for cut in 0..LONGEST {
        let short = &telegram[..cut];
        let refused = reference::read_remedies(short);
        assert_eq!(proved::read_remedies(short).said(), refused);
        let refused = reference::remedy_block(short, 7).map(|block| placed(short, block));
        assert_eq!(proved::remedy_block(short, 7).said(), refused);
        let (mut ours, mut theirs) = (vec![0xA5; cut], vec![0xA5; cut]);
        let refused = rust::write_remedies(handed, &mut theirs);
        assert_eq!(proved::write_remedies(handed, &mut ours).said(), refused);
        assert_eq!(ours, theirs);
    }
}

/// A list that is in no profile.
fn refused_by_profiles(form: Form, list: &[u8]) {
    for profile in [Profile::PlainCoach, Profile::DrivingTrailer] {
        let refused = reference::judge_profile(profile, list, form);
        assert_eq!(refused.map_err(|refusal| refusal.number).err(), Some(34));
        assert_eq!(proved::judge_profile(profile, list, form).said(), refused);
    }
}

/// A step without a store and without data.
fn nothing_recorded() -> Step<'static> {
    Step {
        store: &[],
        now: 0,
        before: &[],
        after: &[],
    }
}

fn refused_alike_in(form: Form, list: Vec<u8>) {
    for cut in 0..list.len() {
        let short = &list[..cut];
        assert_eq!(
            proved::judge(short, form).said(),
            reference::judge(short, form)
        );
        assert_eq!(
            proved::judge_profile(Profile::PlainCoach, short, form).said(),
            reference::judge_profile(Profile::PlainCoach, short, form)
        );
        assert_eq!(
            proved::extends(&list, form, short, form).said(),
            reference::extends(&list, form, short, form)
        );
        compared_alike(&list, short, form);
        looked_at_alike(short, form);
        assert_eq!(
            proved::read(short, form, &[], 0, 0, 0).said(),
            reference::read(short, form, &[], 0, 0, 0)
        );
        readings::read_alike(short, form, &[], 0, [1, 1]);
        assert_eq!(
            proved::show(short, form, &[], 0, 0, 0, Kind::Speed).said(),
            reference::show(short, form, &[], 0, 0, 0, Kind::Speed)
        );
        assert_eq!(
            proved::marshal(short, form, &[], 0, &mut []).said(),
            reference::marshal(short, form, &[], 0, &mut [])
        );
        assert_eq!(
            proved::relay(short, form, &[], 0, 0, &mut []).said(),
            reference::relay(short, form, &[], 0, 0, &mut [])
        );
        assert_eq!(
            proved::check_step(short, form, 0, &[], nothing_recorded()).said(),
            rust::check_step(short, form, 0, &[], nothing_recorded())
        );
        assert_eq!(
            proved::doors(short, form, &[], 0, &[], 0).said(),
            reference::doors(short, form, &[], 0, &[], 0)
        );
        assert_eq!(
            proved::serial(short, form, 0).said(),
            reference::serial(short, form, 0)
        );
        assert_eq!(
            proved::to_form_2(short, &mut []).said(),
            reference::to_form_2(short, &mut [])
        );
        assert_eq!(
            proved::to_form_1(short, &mut []).said(),
            reference::to_form_1(short, &mut [])
        );
        assert_eq!(proved::gap(short, 1).said(), reference::gap(short, 1));
        assert_eq!(proved::e_read(short).said(), reference::e_read(short));
        assert_eq!(
            proved::resolve(short, 66).said(),
            reference::resolve(short, 66)
        );
        assert_eq!(
            proved::read_field(short, 100, 7),
            reference::read_field(short, 100, 7)
        );
    }
}

/// A signal of a list that is refused.
fn looked_at_alike(short: &[u8], form: Form) {
    assert_eq!(
        proved::signal_entry(short, form, 0).said(),
        reference::signal_entry(short, form, 0)
    );
    assert_eq!(
        proved::find_signal(short, form, 0, 18).said(),
        reference::find_signal(short, form, 0, 18)
    );
}

/// A list and one that is refused, compared in either order.
fn compared_alike(list: &[u8], short: &[u8], form: Form) {
    for (a, b) in [(list, short), (short, list)] {
        assert_eq!(
            proved::signal_change(a, form, b, form, 0).said(),
            reference::signal_change(a, form, b, form, 0)
        );
        assert_eq!(
            proved::route_change(a, form, b, form, 0).said(),
            reference::route_change(a, form, b, form, 0)
        );
        assert_eq!(
            proved::codes_gained(a, form, b, form, 18, 0).said(),
            reference::codes_gained(a, form, b, form, 18, 0)
        );
    }
}

/// Every call of the table, in its order.
pub fn all() -> Vec<Case> {
    let [judge, extends, marshal] = longest();
    let longest = leak(lists::list(64, 5_000));
    let telegram = lists::telegram();
    let r3 = [&[0x13], &telegram[1..40]].concat();
    let mut cases = vec![judge, judge_profile()];
    cases.extend(reads());
    cases.extend(speeds().into_iter().chain(readings::all()));
    cases.extend([
        marshal,
        compose(
            "compose R1, 256 signals",
            longest,
            lists::values(64),
            lists::marks(64),
        ),
        relay("relay R1, 256 signals", longest, &telegram),
        take("take R1", telegram),
        take("take R3", r3),
        gap(),
        extends,
    ]);
    cases.extend(comparing());
    cases.extend(sweeps());
    cases.extend([
        e_read("E read, a request", 0x9001),
        e_read("E read, a report", 0x9A01),
        resolve("resolve 63 vehicles, coaches", 67),
        resolve("resolve 63 vehicles, all", 66),
        check_place(583),
    ]);
    cases.extend(checked_steps().into_iter().chain(christening()));
    cases.extend([10, 63].map(doors).into_iter().chain(remedies()));
    cases.extend(forms());
    cases.extend(wide());
    for width in [1, 4, 8, 16, 48, 49, 63, 64] {
        cases.extend([read_fields(width), write_fields(width)]);
    }
    cases
}
