//! C-21, whole recordings: what the proved library marshals, step upon step, is accepted; with one thing wrong in it, the step that has it is named,
//! whatever stands behind it.

use std::collections::BTreeMap;
use std::fmt;

use crate::case::{Answer, Call, Case};
use crate::list::List;
use crate::memory::on_heap;
use crate::passed_on::written;
use crate::random::Random;
use crate::sides::{by_header, by_reference, by_wrappers, Side};
use crate::steps::{self, fields, flip, needed, ROUTED};
use crate::store;
use reference::Form;

/// What the recordings of a seed must meet.
const NAMES: [&str; 23] = [
    "no steps",
    "one step",
    "20 steps",
    "1,000 steps",
    "1,001 steps",
    "our own",
    "other data at a later step",
    "a bit of a route",
    "a bit of no route",
    "a bit that routes cannot reach",
    "at the first step",
    "at the last of several",
    "between two steps",
    "the next goes on from it",
    "the next does not",
    "wrong before a 1,001st",
    "refused 5",
    "refused 12",
    "refused 36",
    "refused 37",
    "refused 38",
    "list refused",
    "list refused, no steps",
];

pub struct Met {
    names: BTreeMap<&'static str, u64>,
    pub recordings: u64,
    pub steps: u64,
}

#[derive(Clone)]
struct Step {
    store: Vec<u8>,
    clock: u32,
    before: Vec<u8>,
    after: Vec<u8>,
}

/// What is wrong in a recording, and at which step.
#[derive(Clone, Copy)]
enum Fault {
    None,
    List,
    /// A bit of the data after; whether the next step goes on from it.
    Bit(usize, u64, bool),
    Store(usize),
    /// Data that end before the last route does.
    Short(usize),
    /// Data after of an octet more.
    Long(usize),
    /// Data before that are not the last one's.
    Apart(usize),
    /// 1,001 steps.
    Many,
}

struct Recording {
    list: List,
    octets: Vec<u8>,
    steps: Vec<Step>,
    fault: Fault,
}

/// What is said of a recording: so many steps accepted, the list's refusal, or the step that is named, from 0.
#[derive(Debug, PartialEq)]
enum Verdict {
    Accepted(usize),
    Unlisted(Answer),
    Named(usize, Answer),
}

impl Recording {
    fn marshalled(&self, step: &Step) -> Result<Vec<u8>, String> {
        let areas = vec![self.octets.clone(), step.store.clone(), step.before.clone()];
        let numbers = vec![self.list.form, step.clock.into()];
        written(by_header, &Case::new(Call::Marshal, areas, numbers))
    }

    /// So many steps of our own: between two of them a telegram comes, or the store is swept, or nothing happens but that time goes by.
    fn of_our_own(r: &Random, count: usize) -> Result<Self, String> {
        let (list, clock) = (steps::list(r), store::clock(r));
        let (store, before) = (store::store(r, &list, clock), steps::data(r, &list));
        let mut recording = Recording {
            octets: list.octets(),
            list,
            steps: vec![],
            fault: Fault::None,
        };
        let after = vec![];
        let mut step = Step {
            store,
            clock,
            before,
            after,
        };
        for _ in 0..count {
            step.after = recording.marshalled(&step)?;
            recording.steps.push(step.clone());
            step.before = step.after.clone();
            recording.pass(r, &mut step)?;
        }
        Ok(recording)
    }

    /// Time goes by.
    fn pass(&self, r: &Random, step: &mut Step) -> Result<(), String> {
        step.clock = step
            .clock
            .wrapping_add(r.of(&[0, 1, 100, 4_000, 5_001, 600_001]));
        let (store, clock) = (step.store.clone(), step.clock.into());
        let case = match r.below(4) {
            0 => Case::new(Call::Sweep, vec![store], vec![clock]),
            1 | 2 => {
                let kind = store::kind(r, &self.list);
                let telegram = store::telegram(r, &self.list, kind);
                let vehicle = r.of(&[1, 2, 3, r.within(1, 63)]);
                Case::new(Call::Take, vec![store, telegram], vec![vehicle, clock])
            }
            _ => return Ok(()),
        };
        step.store = written(by_header, &case)?;
        Ok(())
    }

    /// As many steps as asked for, all but the first of which are alike.
    fn long(r: &Random, count: usize) -> Result<Self, String> {
        let mut recording = Recording::of_our_own(r, 1)?;
        let mut step = recording.steps[0].clone();
        step.before = step.after.clone();
        recording.steps.resize(count, step);
        Ok(recording)
    }

    /// One of a number: mostly up to 20 steps, at times 1,000 or one more.
    fn new(r: &Random, number: u64) -> Result<Self, String> {
        let mut recording = match number % 300 {
            0 => Recording::long(r, 1_000)?,
            100 | 200 => Recording::long(r, 1_001)?,
            _ => Recording::of_our_own(r, r.of(&[0, 1, 2, 3, r.index(21), r.index(21), 20]))?,
        };
        recording.fault = match number % 300 {
            0 => Fault::None,
            100 => Fault::Many,
            200 => recording.wrong_bit(r, 1_000).unwrap_or(Fault::Many),
            _ => recording.any_fault(r),
        };
        recording.spoil()?;
        Ok(recording)
    }

    /// A bit of one of the first so many steps, if it has data: mostly of the first or of the last of them.
    fn wrong_bit(&self, r: &Random, count: usize) -> Option<Fault> {
        let at = r.of(&[0, count - 1, r.index(count)]);
        let bits = 8 * self.steps[at].after.len() as u64;
        let address = || steps::address(r, &fields(&self.list), bits);
        (bits > 0).then(|| Fault::Bit(at, address(), r.one_in(2)))
    }

    fn any_fault(&self, r: &Random) -> Fault {
        let count = self.steps.len();
        if r.one_in(20) || (count == 0 && r.one_in(3)) {
            return Fault::List;
        }
        if count == 0 || r.one_in(4) {
            return Fault::None;
        }
        let at = r.index(count);
        match r.below(10) {
            0 => Fault::Store(at),
            1 if needed(&self.list) > 0 => Fault::Short(at),
            2 => Fault::Long(at),
            3 if at > 0 && !self.steps[at].before.is_empty() => Fault::Apart(at),
            _ => self.wrong_bit(r, count).unwrap_or(Fault::Store(at)),
        }
    }

    /// Puts the fault into it.
    fn spoil(&mut self) -> Result<(), String> {
        match self.fault {
            Fault::List => self.octets.push(0),
            Fault::Bit(at, address, goes_on) => {
                flip(&mut self.steps[at].after, address);
                let after = self.steps[at].after.clone();
                if let Some(next) = self.steps.get_mut(at + 1).filter(|_| goes_on) {
                    next.before = after;
                }
            }
            Fault::Store(at) => drop(self.steps[at].store.pop()),
            Fault::Short(at) => self.steps[at].before.truncate(needed(&self.list) - 1),
            Fault::Long(at) => self.steps[at].after.push(0),
            Fault::Apart(at) => {
                let mut step = self.steps[at].clone();
                let bits = 8 * step.before.len() as u64;
                flip(&mut step.before, bits - 1);
                step.after = self.marshalled(&step)?;
                self.steps[at] = step;
            }
            Fault::None | Fault::Many => {}
        }
        Ok(())
    }

    /// What is to be said of it, by what was done to it.
    fn wanted(&self) -> Verdict {
        let refused = |at: usize, number: u32| Verdict::Named(at, Answer::refused(number, 0));
        match self.fault {
            Fault::None => Verdict::Accepted(self.steps.len()),
            Fault::List => {
                let behind = Answer::refused(4u32, self.octets.len() as u64 - 1);
                match self.steps.is_empty() {
                    true => Verdict::Unlisted(behind),
                    false => Verdict::Named(0, behind),
                }
            }
            Fault::Bit(at, address, _) => Verdict::Named(at, self.wrong(at, address)),
            Fault::Store(at) => refused(at, 5),
            Fault::Short(at) => refused(at, 12),
            Fault::Long(at) => refused(at, 36),
            Fault::Apart(at) => refused(at, 37),
            Fault::Many => refused(1_000, 38),
        }
    }

    /// The bit that is named, with its route and the reason of its reading.
    fn wrong(&self, at: usize, address: u64) -> Answer {
        let (step, bit) = (&self.steps[at], [0, address / 8, address % 8]);
        let has = |route: &usize| fields(&self.list)[*route].contains(&address);
        let Some(number) = (0..self.list.routes.len()).find(has) else {
            return Answer::gives(bit);
        };
        let (route, form) = (&self.list.routes[number], Form::of(self.list.form));
        let (vehicle, signal) = (route.vehicle, route.signal);
        let read = reference::read(&self.octets, form, &step.store, step.clock, vehicle, signal);
        let reason = read.map_or(u64::MAX, |read| read.reason.into());
        Answer::gives([bit[0], bit[1], bit[2], 1, number as u64, reason])
    }

    /// Step by step, each with how many were right before it, and the data after of the last of them.
    fn gone_through(&self, side: Side) -> Verdict {
        let mut last: &[u8] = &[];
        for (at, step) in self.steps.iter().enumerate() {
            let areas = [&self.octets, last, &step.store, &step.before, &step.after];
            let numbers = vec![self.list.form, at as u64, step.clock.into()];
            let case = Case::new(Call::CheckStep, areas.map(<[u8]>::to_vec).to_vec(), numbers);
            let answer = on_heap(side, &case).answer;
            if answer != Answer::gives([1]) {
                return Verdict::Named(at, answer);
            }
            last = &step.after;
        }
        let areas = vec![self.octets.clone()];
        let answer = on_heap(side, &Case::new(Call::Judge, areas, vec![self.list.form])).answer;
        match answer.refusal {
            0 => Verdict::Accepted(self.steps.len()),
            _ => Verdict::Unlisted(answer),
        }
    }

    /// Whether the data change at a step that is not the first.
    fn has_other_data(&self) -> bool {
        self.steps
            .iter()
            .skip(1)
            .any(|step| step.before != step.after)
    }
}

/// How long a recording is, and whether it is our own.
fn own_rows(recording: &Recording, verdict: &Verdict) -> [bool; 7] {
    let count = recording.steps.len();
    let own = *verdict == Verdict::Accepted(count);
    [
        count == 0,
        count == 1,
        count == 20,
        own && count == 1_000,
        count == 1_001,
        own && count > 0,
        own && recording.has_other_data(),
    ]
}

/// What is wrong in it, and where.
fn fault_rows(recording: &Recording, answer: &Answer) -> [bool; 16] {
    let count = recording.steps.len();
    let bit = match recording.fault {
        Fault::Bit(at, address, goes_on) => Some((at, address, goes_on)),
        _ => None,
    };
    let refused = |number: u32| answer.refusal == number;
    [
        bit.is_some() && answer.gives[3] == 1,
        bit.is_some() && answer.gives[3] == 0,
        bit.is_some_and(|(_, address, _)| address >= ROUTED),
        bit.is_some_and(|(at, ..)| at == 0),
        bit.is_some_and(|(at, ..)| at > 0 && at == count - 1),
        bit.is_some_and(|(at, ..)| at > 0 && at < count - 1),
        bit.is_some_and(|(at, _, goes_on)| goes_on && at < count - 1),
        bit.is_some_and(|(at, _, goes_on)| !goes_on && at < count - 1),
        bit.is_some() && count == 1_001,
        refused(5),
        refused(12),
        refused(36),
        refused(37),
        refused(38),
        refused(4) && count > 0,
        refused(4) && count == 0,
    ]
}

impl Met {
    fn count(&mut self, recording: &Recording, verdict: &Verdict) {
        let (gone, answer) = match verdict {
            Verdict::Named(at, answer) => (at + 1, *answer),
            Verdict::Unlisted(answer) => (0, *answer),
            Verdict::Accepted(count) => (*count, Answer::default()),
        };
        let own = own_rows(recording, verdict);
        let met = own.into_iter().chain(fault_rows(recording, &answer));
        self.recordings += 1;
        self.steps += gone as u64;
        for (name, met) in NAMES.into_iter().zip(met) {
            *self.names.entry(name).or_default() += u64::from(met);
        }
    }

    pub fn faults(&self) -> Vec<String> {
        let missing = self.names.iter().filter(|(_, &count)| count == 0);
        missing
            .map(|(name, _)| format!("UNREACHED: recorded, {name}"))
            .collect()
    }
}

impl fmt::Display for Met {
    fn fmt(&self, f: &mut fmt::Formatter) -> fmt::Result {
        let said = NAMES.map(|name| format!("{name}: {}", self.names[name]));
        writeln!(f, "{:15}{}", "recorded", said.join(", "))
    }
}

/// So many recordings of a seed, by both libraries; what they met, or where the first went wrong.
pub fn all(recordings: u64, seed: u64) -> Result<Met, String> {
    let mut met = Met {
        names: NAMES.map(|name| (name, 0)).into(),
        recordings: 0,
        steps: 0,
    };
    for number in 0..recordings {
        // Numbers that no case of the seed has, and no other run.
        let r = Random::of_case(seed, u64::MAX / 64 - number);
        let said = |why| format!("recording {number} of seed {seed}: {why}");
        let recording = Recording::new(&r, number).map_err(said)?;
        let wanted = recording.wanted();
        for side in [by_reference, by_wrappers, by_header] {
            let verdict = recording.gone_through(side);
            if verdict != wanted {
                return Err(said(format!("{verdict:?}, not {wanted:?}")));
            }
        }
        met.count(&recording, &wanted);
    }
    Ok(met)
}
