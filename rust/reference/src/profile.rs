//! C-19, profiles: "Their small controllers need a narrow list".

use crate::form::Form;
use crate::grouping::covers;
use crate::list::{knows, Counts, List, Route, RouteEntry, Signal};
use crate::refusal::Refusal;

/// "at most 64".
const MOST_SIGNALS: usize = 64;

/// "a time limit from 1 to 5,000 ms".
const LONGEST_LIMIT: u32 = 5_000;

/// "at most 16 octets of destination data", in bits.
const DATA_END: u32 = 8 * 16;

/// By whose controllers a list is for.
#[derive(Debug, Clone, Copy, PartialEq, Eq)]
pub enum Profile {
    /// "only type 0 signals".
    PlainCoach = 1,
    /// "also allows R1 signals".
    DrivingTrailer = 2,
}

impl Profile {
    /// The profile that a number says: 2 is the driving trailer's, any other the plain coach's.
    pub const fn of(number: u64) -> Profile {
        match number {
            2 => Profile::DrivingTrailer,
            _ => Profile::PlainCoach,
        }
    }

    /// The last of the types that it allows.
    const fn last_type(self) -> u8 {
        match self {
            Profile::PlainCoach => 0,
            Profile::DrivingTrailer => 1,
        }
    }
}

/// Judges a signal list by a profile: "34 profile rule broken, with the entry's offset, the earliest in list
/// order (a 65th signal breaks it); after 1-4".
pub fn judge_profile(profile: Profile, list: &[u8], form: Form) -> Result<Counts, Refusal> {
    let judged = List::judged(list, form)?;
    let signals = good_signals(profile, &judged);
    if signals < judged.signals.len() {
        let before = 2 + judged.checks.as_flattened().len() + 2;
        return Err(Refusal::with(34, before + signals * form.signal_size()));
    }
    // "the list ends with the last" route.
    match judged.routes[good_routes(&judged)..].as_flattened().len() {
        0 => Ok(judged.counts()),
        behind => Err(Refusal::with(34, list.len() - behind)),
    }
}

/// How many signals, from the first on, keep the profile's rules.
fn good_signals(profile: Profile, list: &List) -> usize {
    let mut codes = list.codes_in_order();
    let narrow = list.signals.iter().map(Signal::of).take(MOST_SIGNALS);
    narrow
        .take_while(|signal| signal.kind() <= profile.last_type())
        .enumerate()
        .take_while(|&(number, signal)| {
            let place = list.check_place(signal);
            let (first, end) = (signal.start(), signal.start() + u16::from(signal.width()));
            place != 0
                && (1..=LONGEST_LIMIT).contains(&signal.limit())
                && (signal.kind() == 0 || covers(place, first, end))
                && knows(codes.next_of(number), signal.replacement())
        })
        .count()
}

/// How many routes, from the first on, end within the data: where one does not, "each start is at or past
/// the end of the route before", so those behind it do not either.
fn good_routes(list: &List) -> usize {
    let within = |entry: &RouteEntry| {
        let route = Route::of(entry);
        let width = list.signals.at(usize::from(route.signal)).width();
        u32::from(route.start) + u32::from(width) <= DATA_END
    };
    list.routes.partition_point(within)
}
