//! C-20, from telegrams to the desk: what vehicles say of their doors is composed, taken and swept, and each address is shown what was said.

use std::collections::BTreeMap;
use std::fmt;

use crate::case::{Answer, Call, Case};
use crate::doors::{sides, Says, LEFT, LOCKED, NOT_KNOWN, OPEN, RIGHT};
use crate::list::{List, Signal};
use crate::memory::on_heap;
use crate::passed_on::written;
use crate::random::Random;
use crate::sides::{by_header, by_reference, by_wrappers, Side};
use crate::store;
use reference::{STORE, VEHICLES};

/// What the trains of a seed must meet.
const NAMES: [&str; 17] = [
    "one vehicle",
    "63 vehicles",
    "locked",
    "open",
    "not known",
    "open beside not known",
    "forced",
    "error",
    "undefined",
    "at the limit",
    "never heard",
    "too old",
    "swept",
    "an older sender",
    "heard again",
    "refused 19",
    "refused 20",
];

pub struct Met {
    names: BTreeMap<&'static str, u64>,
    pub trains: u64,
    pub summaries: u64,
}

/// A telegram: its type, what it says of both sides, the marks of both, how old it is at the desk, and its version, where it is not the list's.
struct Sent {
    kind: u64,
    values: [u64; 2],
    marks: [u8; 2],
    age: u32,
    version: Option<u8>,
}

/// What a vehicle says in the end, by which name, and all that it sent, the last of which counts.
struct Vehicle {
    says: [Says; 2],
    named: &'static str,
    sent: Vec<Sent>,
}

struct Train {
    list: List,
    now: u32,
    marks: Vec<u8>,
    /// All that there can be; those behind the marks are none of the train's.
    vehicles: Vec<Vehicle>,
}

/// Both doors, each under a check of its own, both since version 2 and with the same limit.
fn list(r: &Random) -> List {
    let limit = r.of(&[1, 100, 5_000, 600_000]);
    let door = |start, check| Signal {
        start,
        width: 1,
        kind: 0,
        check,
        since: 2,
        limit,
        replacement: r.below(2),
        serial: 0,
    };
    List {
        form: r.of(&[1, 2]),
        checks: vec![16, 318],
        signals: vec![door(LEFT, 1), door(RIGHT, 2)],
        ..List::default()
    }
}

/// A telegram that says so, not above the limit.
fn sent(r: &Random, limit: u32, says: [Says; 2]) -> Sent {
    Sent {
        kind: r.within(1, 3),
        values: says.map(|says| match says {
            Says::Locked => 1,
            Says::Open => 0,
            Says::Nothing => r.below(2),
        }),
        marks: says.map(|says| match says {
            Says::Nothing => r.of(&[0, 3]),
            _ => r.of(&[1, 1, 2]),
        }),
        age: r.of(&[0, limit, r.below(u64::from(limit) + 1) as u32]),
        version: None,
    }
}

impl Vehicle {
    /// One that says so in the end; where it says nothing of both sides, in one of the ways in which that comes about.
    fn new(r: &Random, limit: u32, says: [Says; 2]) -> Self {
        let (fine, lost) = (
            sent(r, limit, [Says::Locked; 2]),
            says == [Says::Nothing; 2],
        );
        let (named, last) = match r.below(6) {
            0 if lost => ("never heard", None),
            1 if lost => {
                let age = limit + 1;
                ("too old", Some(Sent { age, ..fine }))
            }
            2 if lost => {
                let age = r.of(&[600_001, 700_000, 1 << 31]);
                ("swept", Some(Sent { age, ..fine }))
            }
            3 if lost => {
                let version = Some(r.of(&[0, 1]));
                ("an older sender", Some(Sent { version, ..fine }))
            }
            _ => ("heard", Some(sent(r, limit, says))),
        };
        let before = sent(r, limit, [Says::Open; 2]);
        let again = last.is_some() && r.one_in(3);
        Vehicle {
            says,
            named,
            sent: again.then_some(before).into_iter().chain(last).collect(),
        }
    }
}

impl Train {
    fn new(r: &Random) -> Self {
        let list = list(r);
        let limit = list.signals[0].limit as u32;
        let len = r.of(&[1, 2, 3, r.within(1, 63) as usize, VEHICLES]);
        let mut marks: Vec<u8> = (0..len).map(|_| r.of(&[0, 2, 2, 4, 12, 18])).collect();
        marks[0] = r.of(&[5, 5, 3, 2]);
        let behind = vec![[Says::Open; 2]; VEHICLES - len];
        let said = sides(r, len).into_iter().chain(behind);
        Train {
            list,
            now: store::clock(r),
            marks,
            vehicles: said.map(|says| Vehicle::new(r, limit, says)).collect(),
        }
    }

    /// The store at the desk, when all is taken and swept.
    fn heard(&self, side: Side) -> Result<Vec<u8>, String> {
        let (octets, now) = (self.list.octets(), self.now);
        let mut store = vec![0; STORE];
        for (vehicle, of) in (1..).zip(&self.vehicles) {
            for sent in &of.sent {
                let out = vec![0xEE; if sent.kind == 3 { 40 } else { 128 }];
                let areas = vec![octets.clone(), sent.marks.to_vec(), out];
                let mut case = Case::new(Call::Compose, areas, vec![self.list.form, sent.kind]);
                case.values = sent.values.to_vec();
                let mut telegram = written(side, &case)?;
                telegram[1] = sent.version.unwrap_or(telegram[1]);
                let clock = now.wrapping_sub(sent.age).into();
                let case = Case::new(Call::Take, vec![store, telegram], vec![vehicle, clock]);
                store = written(side, &case)?;
            }
        }
        let case = Case::new(Call::Sweep, vec![store], vec![now.into()]);
        written(side, &case)
    }

    /// What is to be shown of the vehicles that meet an address.
    fn wanted(&self, address: u64) -> Answer {
        let asked = match reference::resolve(&self.marks, address) {
            Ok(members) => members.set,
            Err(refusal) => return Answer::refused(refusal.number, 0),
        };
        let [left, right] = [0, 1].map(|n| {
            let of = |wanted: Says| {
                let vehicles = (1..).zip(&self.vehicles);
                let met = vehicles.filter(|(v, of)| asked >> v & 1 == 1 && of.says[n] == wanted);
                met.fold(0u64, |set, (v, _)| set | 1 << v)
            };
            let (open, lost) = (of(Says::Open), of(Says::Nothing));
            let state = match (open, lost) {
                (0, 0) => LOCKED,
                (0, _) => NOT_KNOWN,
                _ => OPEN,
            };
            [state, open | lost, (open | lost).count_ones().into()]
        });
        Answer::gives([left[0], left[1], left[2], right[0], right[1], right[2]])
    }

    /// Those that mean something, a vehicle and the one behind the last, and some that are not listed.
    fn addresses(&self) -> [u64; 11] {
        let len = self.marks.len() as u64;
        [66, 64, 65, 67, 70, 92, 1, len, len + 1, 68, 256 + 66]
    }

    fn run(&self, side: Side) -> Result<Vec<Answer>, String> {
        let store = self.heard(side)?;
        let shown = self.addresses().map(|address| {
            let areas = vec![self.list.octets(), store.clone(), self.marks.clone()];
            let numbers = vec![self.list.form, self.now.into(), address];
            let given = on_heap(side, &Case::new(Call::Doors, areas, numbers)).answer;
            match given == self.wanted(address) {
                true => Ok(given),
                false => Err(format!("address {address}: {given}")),
            }
        });
        shown.into_iter().collect()
    }
}

impl Met {
    fn count(&mut self, train: &Train, shown: &[Answer]) {
        let len = train.marks.len();
        let vehicles = &train.vehicles[..len];
        let last = || vehicles.iter().filter_map(|vehicle| vehicle.sent.last());
        let marked = |mark: u8| last().any(|sent| sent.marks.contains(&mark));
        let named = |name: &str| vehicles.iter().any(|vehicle| vehicle.named == name);
        let limit = train.list.signals[0].limit;
        let all = shown[0].gives;
        let state = |state: u64| all[0] == state || all[3] == state;
        let one_open = |v: &Vehicle| v.says[0] == Says::Open;
        let one_lost = |v: &Vehicle| v.says[0] == Says::Nothing;
        let met = [
            len == 1,
            len == 63,
            state(LOCKED),
            state(OPEN),
            state(NOT_KNOWN),
            vehicles.iter().any(one_open) && vehicles.iter().any(one_lost),
            marked(2),
            marked(0),
            marked(3),
            last().any(|sent| u64::from(sent.age) == limit),
            named("never heard"),
            named("too old"),
            named("swept"),
            named("an older sender"),
            vehicles.iter().any(|vehicle| vehicle.sent.len() > 1),
            shown.iter().any(|answer| answer.refusal == 19),
            shown.iter().any(|answer| answer.refusal == 20),
        ];
        self.trains += 1;
        self.summaries += shown.len() as u64;
        for (name, met) in NAMES.into_iter().zip(met) {
            *self.names.entry(name).or_default() += u64::from(met);
        }
    }

    pub fn faults(&self) -> Vec<String> {
        let missing = self.names.iter().filter(|(_, &count)| count == 0);
        missing
            .map(|(name, _)| format!("UNREACHED: at the desk, {name}"))
            .collect()
    }
}

impl fmt::Display for Met {
    fn fmt(&self, f: &mut fmt::Formatter) -> fmt::Result {
        let said = NAMES.map(|name| format!("{name}: {}", self.names[name]));
        writeln!(f, "{:15}{}", "at the desk", said.join(", "))
    }
}

/// So many trains of a seed, by both libraries; what they met, or where the first went wrong.
pub fn all(trains: u64, seed: u64) -> Result<Met, String> {
    let mut met = Met {
        names: NAMES.map(|name| (name, 0)).into(),
        trains: 0,
        summaries: 0,
    };
    for number in 0..trains {
        // Numbers that no case of the seed has, and no other run.
        let train = Train::new(&Random::of_case(seed, u64::MAX / 32 - number));
        let said = |why| format!("train {number} of seed {seed}: {why}");
        let shown = train.run(by_reference).map_err(said)?;
        for side in [by_wrappers, by_header] {
            train.run(side).map_err(said)?;
        }
        met.count(&train, &shown);
    }
    Ok(met)
}
