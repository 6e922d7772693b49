//! C-14, from records to addresses: the marks that come out resolve to the vehicles that are so by what they were made from, whatever the address;
//! and what is refused leaves every octet as it was.

use std::collections::BTreeMap;
use std::fmt;

use crate::case::{Answer, Call, Case};
use crate::memory::on_heap;
use crate::random::Random;
use crate::records;
use crate::sides::{by_header, by_reference, by_wrappers, Side};

/// What the trains of a seed must meet.
const NAMES: [&str; 11] = [
    "one vehicle",
    "63 vehicles",
    "nobody leads",
    "one leads",
    "led ones",
    "coaches",
    "tractive ones",
    "sleeping cars",
    "refused 17",
    "refused 18",
    "refused 31",
];

pub struct Met {
    names: BTreeMap<&'static str, u64>,
    pub trains: u64,
    pub resolved: u64,
}

/// Every address that means something, those beside, and some far off.
fn addresses() -> impl Iterator<Item = u64> {
    (0..=100).chain([255, 256 + 1, 256 + 66, 1 << 32 | 64, u64::MAX])
}

/// What the reference makes of an address in a train of these marks.
fn wanted(marks: &[u8], address: u64) -> Answer {
    match reference::resolve(marks, address) {
        Ok(members) => Answer::gives([members.set, members.size.into()]),
        Err(refusal) => Answer::refused(refusal.number, refusal.carried),
    }
}

/// By one side: a train that is built resolves as it is described, and one that is refused changes nothing. Gives the refusal, or 0.
fn christened(side: Side, described: &[u8], case: &Case) -> Result<u32, String> {
    let after = on_heap(side, case);
    let (before, marks) = (&case.areas[2], &after.areas[2]);
    if after.answer.refusal != 0 {
        return match after.areas == case.areas {
            true => Ok(after.answer.refusal),
            false => Err("refused, and something is changed".to_string()),
        };
    }
    let count = after.answer.gives[0] as usize;
    if count != described.len() || marks[count..] != before[count..] {
        return Err(format!(
            "{count} vehicles, or marks behind them are changed"
        ));
    }
    for address in addresses() {
        let case = Case::new(Call::Resolve, vec![marks[..count].to_vec()], vec![address]);
        if on_heap(side, &case).answer != wanted(described, address) {
            return Err(format!("address {address} resolves to other vehicles"));
        }
    }
    Ok(0)
}

impl Met {
    fn count(&mut self, described: &[u8], refusal: u32) {
        let good = refusal == 0;
        let have = |mark: u8| good && described.iter().any(|of| of & mark != 0);
        let met = [
            good && described.len() == 1,
            good && described.len() == 63,
            good && !have(1),
            have(1),
            have(8),
            have(2),
            have(4),
            have(16),
            refusal == 17,
            refusal == 18,
            refusal == 31,
        ];
        self.trains += u64::from(good);
        self.resolved += u64::from(good) * addresses().count() as u64;
        for (name, met) in NAMES.into_iter().zip(met) {
            *self.names.entry(name).or_default() += u64::from(met);
        }
    }

    pub fn faults(&self) -> Vec<String> {
        let missing = self.names.iter().filter(|(_, &count)| count == 0);
        missing
            .map(|(name, _)| format!("UNREACHED: resolved, {name}"))
            .collect()
    }
}

impl fmt::Display for Met {
    fn fmt(&self, f: &mut fmt::Formatter) -> fmt::Result {
        let said = NAMES.map(|name| format!("{name}: {}", self.names[name]));
        writeln!(f, "{:15}{}", "resolved", said.join(", "))
    }
}

/// So many trains of a seed, by both libraries; what they met, or where the first went wrong.
pub fn all(trains: u64, seed: u64) -> Result<Met, String> {
    let mut met = Met {
        names: NAMES.map(|name| (name, 0)).into(),
        trains: 0,
        resolved: 0,
    };
    for number in 0..trains {
        // Numbers that no case of the seed has, and no other run.
        let r = Random::of_case(seed, u64::MAX / 16 - number);
        let (described, case) = records::handed(&r);
        let said = |why| format!("train {number} of seed {seed}: {why}");
        let refusal = christened(by_reference, &described, &case).map_err(said)?;
        for side in [by_wrappers, by_header] {
            if christened(side, &described, &case).map_err(said)? != refusal {
                return Err(said("another refusal".to_string()));
            }
        }
        met.count(&described, refusal);
    }
    Ok(met)
}
