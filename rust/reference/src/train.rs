//! "The consist is a lent list of vehicle entries, vehicle 1 first, each with yes/no marks: leading,
//! coach, tractive, led, sleeping."

use crate::refusal::Refusal;

pub(crate) const LEADING: u8 = 1;
pub(crate) const COACH: u8 = 2;
pub(crate) const TRACTIVE: u8 = 4;
pub(crate) const LED: u8 = 8;
pub(crate) const SLEEPING: u8 = 16;

/// "The answer is the set and the number of vehicles in the set."
#[derive(Debug, Clone, Copy, PartialEq, Eq)]
pub struct Members {
    /// Vehicle v is bit v, worth 2^v; bit 0 is never set.
    pub set: u64,
    /// The number of vehicles in the set.
    pub size: u32,
}

/// The vehicles of the consist that meet an address. A vehicle is one octet of marks: 1 leading, 2 coach,
/// 4 tractive, 8 led, 16 sleeping; the three high bits are not read. Refusals 17 to 20.
pub fn resolve(marks: &[u8], address: u64) -> Result<Members, Refusal> {
    if !(1..=63).contains(&marks.len()) {
        return Err(Refusal::plain(17));
    }
    judge_rule(marks)?;
    // "Addresses: 1-63 that vehicle, 64 leading, 65 led, 66 all, 67 coaches, 70 tractive, 92 sleeping cars"
    let everyone = (u64::MAX >> (63 - marks.len())) & !1;
    let with = |wanted: u8| {
        (1..).zip(marks).fold(0, |set, (vehicle, &mark)| {
            set | u64::from(mark & wanted != 0) << vehicle
        })
    };
    let set = match address {
        1..=63 => everyone & (1 << address),
        64 => with(LEADING),
        65 => with(LED),
        66 => everyone,
        67 => with(COACH),
        70 => with(TRACTIVE),
        92 => with(SLEEPING),
        _ => return Err(Refusal::plain(19)),
    };
    // "Refusal 20 is given exactly if no vehicle of the train meets a known address."
    if set == 0 {
        return Err(Refusal::plain(20));
    }
    Ok(Members {
        set,
        size: set.count_ones(),
    })
}

/// "At most one is leading; led needs tractive and not leading": of 63 vehicles at most. Refusal 18.
#[inline]
pub(crate) fn judge_rule(marks: &[u8]) -> Result<(), Refusal> {
    let leading: u8 = marks.iter().map(|mark| mark & LEADING).sum();
    let broken: u8 = marks
        .iter()
        .map(|mark| u8::from(mark & LED != 0 && mark & (TRACTIVE | LEADING) != TRACTIVE))
        .sum();
    if leading > 1 || broken > 0 {
        return Err(Refusal::plain(18));
    }
    Ok(())
}
