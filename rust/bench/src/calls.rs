//! The calls that judge a list, and two that are lent a store or a train: each on both sides, of one input. Growth is measured with them, and the
//! slowest input searched for.

use crate::cases::{one, Case, Run};
use crate::changes::Asks;
use crate::lists::{Step, NOW};
use crate::proved::Said;
use crate::shape::Of;
use reference::{Form, Kind, Profile, HEAD, HEARD, SLOT, TELEGRAM};
use std::hint::black_box;
use std::rc::Rc;

/// What is lent, of which a call takes what it needs.
pub struct Input {
    pub list: Vec<u8>,
    /// In form 2, with no serial number.
    pub wide: Vec<u8>,
    /// The list once more.
    pub same: Vec<u8>,
    /// With other time limits, so that each extends the other.
    pub other: Vec<u8>,
    /// With other signals and routes.
    pub changed: Vec<u8>,
    pub store: Vec<u8>,
    pub vehicle: u64,
    /// A signal by its number, and by its type and start.
    pub signal: u64,
    pub kind: u64,
    pub start: u64,
    pub shown: Kind,
    /// The type of the telegram that is composed, and what of.
    pub telegram: u64,
    pub values: Vec<u64>,
    pub marks: Vec<u8>,
    pub before: Vec<u8>,
    /// As the list marshals, or with a bit wrong.
    pub after: Vec<u8>,
    pub train: Vec<u8>,
    pub address: u64,
}

impl Input {
    fn key(&self) -> u64 {
        1_024 * self.kind + self.start
    }

    fn step(&self) -> Step<'_> {
        Step {
            store: &self.store,
            now: NOW,
            before: &self.before,
            after: &self.after,
        }
    }

    /// What a sweep marks, as it was.
    fn hear(&self, store: &mut [u8]) {
        for (slot, heard) in store.chunks_mut(SLOT).zip(self.store.chunks(SLOT)) {
            slot[HEARD] = heard[HEARD];
        }
    }
}

/// What is lent for writing.
#[derive(PartialEq)]
pub struct Lent {
    pub octets: Vec<u8>,
    pub values: Vec<u64>,
}

/// One call of one side.
pub type Side = fn(&Input, &mut Lent);

pub struct Call {
    pub name: &'static str,
    pub of: Of,
    /// The form of the list that it judges, if it judges one.
    pub judges: Option<Form>,
    pub asks: Asks,
    pub lent: fn(&Input) -> Lent,
    pub proved: Side,
    pub rust: Side,
    /// Fails if the two sides answer or write something else.
    pub alike: fn(&Input),
}

/// A call, made of what is written once for both sides.
macro_rules! call {
    ($name:literal, $of:ident, $judges:expr, $asks:ident, $lent:expr, |$i:ident, $out:ident| $made:expr) => {
        Call {
            name: $name,
            of: Of::$of,
            judges: $judges,
            asks: Asks::$asks,
            lent: $lent,
            proved: |$i, $out| {
                use crate::proved as side;
                let _ = &$out;
                let _ = black_box($made);
            },
            rust: |$i, $out| {
                use crate::rust as side;
                let _ = &$out;
                let _ = black_box($made);
            },
            alike: |$i| {
                let lent: fn(&Input) -> Lent = $lent;
                let (mut ours, mut theirs) = (lent($i), lent($i));
                let proved = {
                    use crate::proved as side;
                    let $out = &mut ours;
                    let _ = &$out;
                    $made
                };
                let rust = {
                    use crate::rust as side;
                    let $out = &mut theirs;
                    let _ = &$out;
                    $made
                };
                assert_eq!(proved.said(), rust, "{}", $name);
                assert!(ours == theirs, "{}: something else is written", $name);
            },
        }
    };
}

const ONE: Option<Form> = Some(Form::One);
const TWO: Option<Form> = Some(Form::Two);

/// Form 2, which no side may know before it is called.
#[inline(always)]
fn two() -> Form {
    black_box(Form::Two)
}

fn nothing(_: &Input) -> Lent {
    octets(0)
}

fn octets(octets: usize) -> Lent {
    Lent {
        octets: vec![0xA5; octets],
        values: vec![],
    }
}

fn store(i: &Input) -> Lent {
    Lent {
        octets: i.store.clone(),
        values: vec![],
    }
}

/// A value and a reason for each signal of so many vehicles.
fn readings(i: &Input, vehicles: usize) -> Lent {
    let entries = vehicles * i.values.len();
    Lent {
        octets: vec![0xA5; entries],
        values: vec![0xA5; entries],
    }
}

/// The octets of a telegram of this type.
fn length(kind: u64) -> usize {
    if kind == 3 {
        40
    } else {
        TELEGRAM
    }
}

/// The type of the telegram that the vehicle was last heard with.
fn heard_type(i: &Input) -> u64 {
    u64::from(i.store[(i.vehicle as usize - 1) * SLOT + HEAD] & 15)
}

/// Every call, in the order of the tables.
pub fn all() -> Vec<Call> {
    let mut calls = judging();
    calls.extend(reading());
    calls.extend(comparing());
    calls.extend(looking());
    calls.extend(others());
    calls
}

#[rustfmt::skip]
fn judging() -> Vec<Call> {
    vec![
        call!("judge", Any, ONE, List, nothing, |i, out| side::judge(&i.list, one())),
        call!("judge in form 2", Any, TWO, List, nothing, |i, out| side::judge(&i.wide, two())),
        call!("judge profile", Profile, ONE, List, nothing, |i, out| {
            side::judge_profile(black_box(Profile::DrivingTrailer), &i.list, one())
        }),
    ]
}

/// What reads or writes a telegram.
#[rustfmt::skip]
fn reading() -> Vec<Call> {
    vec![
        call!("read", Any, ONE, All, nothing, |i, out| side::read(&i.list, one(), &i.store, NOW, i.vehicle, i.signal)),
        call!("read all", Any, ONE, All, |i| readings(i, 1), |i, out| {
            side::read_all(&i.list, one(), &i.store, NOW, i.vehicle, &mut out.values, &mut out.octets)
        }),
        call!("read train", Any, ONE, All, |i| readings(i, 63), |i, out| {
            side::read_train(&i.list, one(), &i.store, NOW, black_box(63), &mut out.values, &mut out.octets)
        }),
        call!("show", Any, ONE, All, nothing, |i, out| side::show(&i.list, one(), &i.store, NOW, i.vehicle, i.signal, i.shown)),
        call!("marshal", Any, ONE, All, |i| octets(i.after.len()), |i, out| side::marshal(&i.list, one(), &i.store, NOW, &mut out.octets)),
        call!("compose", Any, ONE, All, |i| octets(length(i.telegram)), |i, out| {
            side::compose(&i.list, one(), i.telegram, &i.values, &i.marks, &mut out.octets)
        }),
        call!("relay", Any, ONE, All, |i| octets(length(heard_type(i))), |i, out| {
            side::relay(&i.list, one(), &i.store, NOW, i.vehicle, &mut out.octets)
        }),
        call!("check step", Any, ONE, All, nothing, |i, out| side::check_step(&i.list, one(), black_box(1), &i.before, i.step())),
        call!("doors", Doors, ONE, All, nothing, |i, out| side::doors(&i.list, one(), &i.store, NOW, &i.train, i.address)),
    ]
}

/// Two lists, of which the second differs in its time limits, in nothing, or in every so many-th signal and route.
#[rustfmt::skip]
fn comparing() -> Vec<Call> {
    vec![
        call!("extends", Any, ONE, List, nothing, |i, out| side::extends(&i.list, one(), &i.other, one())),
        call!("signal change, none", Any, ONE, List, nothing, |i, out| {
            side::signal_change(&i.list, one(), &i.same, one(), black_box(0))
        }),
        call!("route change, none", Any, ONE, List, nothing, |i, out| {
            side::route_change(&i.list, one(), &i.same, one(), black_box(0))
        }),
        call!("codes gained, none", Any, ONE, All, nothing, |i, out| {
            side::codes_gained(&i.list, one(), &i.same, one(), i.key(), black_box(0))
        }),
        call!("compare whole", Any, ONE, All, nothing, |i, out| side::whole(&i.list, &i.changed)),
    ]
}

/// What is asked of a list alone, and a list moved to the other form.
#[rustfmt::skip]
fn looking() -> Vec<Call> {
    vec![
        call!("signal entry", Any, ONE, All, nothing, |i, out| side::signal_entry(&i.list, one(), i.signal)),
        call!("find signal", Any, ONE, All, nothing, |i, out| side::find_signal(&i.list, one(), i.kind, i.start)),
        call!("serial number", Any, TWO, All, nothing, |i, out| side::serial(&i.wide, two(), i.signal)),
        call!("move to form 2", Any, ONE, List, |i| octets(i.wide.len()), |i, out| side::to_form_2(&i.list, &mut out.octets)),
        call!("move to form 1", Any, TWO, List, |i| octets(i.list.len()), |i, out| side::to_form_1(&i.wide, &mut out.octets)),
    ]
}

/// What judges no list.
#[rustfmt::skip]
fn others() -> Vec<Call> {
    vec![
        call!("sweep", Any, None, Store, store, |i, out| {
            i.hear(&mut out.octets);
            side::sweep(&mut out.octets, black_box(NOW))
        }),
        call!("resolve", Any, None, Train, nothing, |i, out| side::resolve(&i.train, i.address)),
    ]
}

impl Call {
    /// One side of this call of an input, to be made so many times.
    pub fn run(&self, side: Side, input: &Rc<Input>) -> Run {
        let (input, mut lent) = (Rc::clone(input), (self.lent)(input));
        Box::new(move |runs| {
            for _ in 0..runs {
                side(black_box(&input), black_box(&mut lent));
            }
        })
    }

    /// Both sides, which must answer alike.
    pub fn case(&self, name: String, input: &Rc<Input>) -> Case {
        (self.alike)(input);
        Case {
            name,
            calls: 1,
            proved: self.run(self.proved, input),
            rust: self.run(self.rust, input),
        }
    }

    /// The octets of the list that it judges.
    pub fn octets(&self, input: &Input) -> Option<usize> {
        self.judges.map(|form| match form {
            Form::One => input.list.len(),
            Form::Two => input.wide.len(),
        })
    }
}
