//! What the calls answer, and the forms and profiles of a list that they are asked about.

use crate::numbers::{Error, Reason};

/// How the signal entries of a list are laid out: said by the caller of every call that takes a list.
#[derive(Debug, Clone, Copy, PartialEq, Eq, Hash)]
#[repr(u8)]
pub enum Form {
    /// 16 octets each.
    One = 1,
    /// 18 octets each, of which the last two are a serial number, 0 for none.
    Two = 2,
}

/// The vehicles whose controllers a list is for: rules that are narrower than those of every list.
#[derive(Debug, Clone, Copy, PartialEq, Eq, Hash)]
#[repr(u8)]
pub enum Profile {
    /// At most 64 signals, all of type 0, each with a check, a time limit of 1 to 5,000 ms and a replacement that is a known code; every route
    /// ends within 16 octets of data.
    PlainCoach = 1,
    /// The same, but for R1 signals, which there may be too, each with all its bits in octets 47-73 and under the check at the place that
    /// [`crate::check_place`] gives for them.
    DrivingTrailer = 2,
}

/// What a good list holds.
#[derive(Debug, Clone, Copy, PartialEq, Eq)]
pub struct Counts {
    /// The number of checks.
    pub checks: usize,
    /// The number of signals.
    pub signals: usize,
    /// The number of known-code entries.
    pub codes: usize,
    /// The number of routes.
    pub routes: usize,
    /// The list's version.
    pub version: usize,
}

/// The answer to "does the second list extend the first".
#[derive(Debug, Clone, Copy, PartialEq, Eq)]
pub enum Extends {
    /// It does.
    Yes,
    /// Both lists are good, and it does not.
    No,
    /// The first list was refused.
    First(Error),
    /// The first list is good, and the second was refused.
    Second(Error),
}

/// What the second of two lists lacks to extend the first.
#[derive(Debug, Clone, Copy, PartialEq, Eq, Hash)]
#[repr(u8)]
pub enum Rule {
    /// Its width is another.
    Width = 1,
    /// The place of its check is another, or one of the two has none.
    Check = 2,
    /// Its since-version is another.
    Since = 3,
    /// A code that it knew is not known any more.
    Codes = 4,
    /// It is in the first list alone.
    Removed = 5,
    /// It is in the second list alone, and its since-version is not above the first list's version.
    NotNewer = 6,
}

impl Rule {
    /// The rule that has this number.
    pub(crate) const fn of(number: u32) -> Option<Rule> {
        match number {
            1 => Some(Rule::Width),
            2 => Some(Rule::Check),
            3 => Some(Rule::Since),
            4 => Some(Rule::Codes),
            5 => Some(Rule::Removed),
            6 => Some(Rule::NotNewer),
            _ => None,
        }
    }
}

/// A difference between two lists: a signal or a route that was added, removed or changed.
#[derive(Debug, Clone, Copy, PartialEq, Eq)]
pub struct Change {
    /// Of a signal its type * 1024 + its start, of a route its destination start. To go on behind it, ask from the key + 1.
    pub key: u64,
    /// Its number in the first list, from 0; where that has none, the number of all that it has.
    pub first: u64,
    /// Its number in the second list, likewise.
    pub second: u64,
    /// The first rule of extending that it breaks; a route breaks none.
    pub breaks: Option<Rule>,
}

/// Codes that lie side by side.
#[derive(Debug, Clone, Copy, PartialEq, Eq)]
pub struct CodeRange {
    /// The lowest.
    pub low: u16,
    /// The highest.
    pub high: u16,
}

/// A signal's entry, as it stands in its list.
#[derive(Debug, Clone, Copy, PartialEq, Eq)]
pub struct Entry {
    /// Its first bit, as a bit address.
    pub start: u16,
    /// Its bits, 1 to 64.
    pub width: u8,
    /// The type: 0 common, 1 R1, 2 R2.
    pub kind: u8,
    /// Which check of the list, from 1; 0 for none.
    pub check: u8,
    /// The since-version.
    pub since: u8,
    /// The time limit in ms; 0 for none.
    pub limit: u32,
    /// The replacement, below 2^48 and 2^width.
    pub replacement: u64,
    /// The place of its check, as a bit address; 0 for none.
    pub place: u16,
}

/// A value and its reason.
#[derive(Debug, Clone, Copy, PartialEq, Eq)]
pub struct Reading {
    /// The value read, or the replacement.
    pub value: u64,
    /// Why it is this value.
    pub reason: Reason,
}

/// How a reading is to be shown; all but the code are scaled, and of signals of 16 bits alone.
#[derive(Debug, Clone, Copy, PartialEq, Eq, Hash)]
#[repr(u8)]
pub enum Kind {
    /// As it stands.
    Code = 0,
    /// As a speed, value / 64.
    Speed = 1,
    /// As a percentage, value × 25 / 4096, unsigned.
    Percentage = 2,
    /// As a percentage, the value in two's complement.
    SignedPercentage = 3,
    /// As a current, value × 125 / 2048.
    Current = 4,
}

/// A shown value; the scaled ones are exact.
#[derive(Debug, Clone, Copy, PartialEq)]
pub enum Shown {
    /// The value itself.
    Code(u64),
    /// In km/h.
    Speed(f32),
    /// In per cent.
    Percentage(f32),
    /// In A.
    Current(f32),
}

/// A shown value and its reason.
#[derive(Debug, Clone, Copy, PartialEq)]
pub struct ShownReading {
    /// The value read, or the replacement, as the kind asks.
    pub shown: Shown,
    /// Why it is this value.
    pub reason: Reason,
}

/// The vehicles that meet an address, or that kept a side from locked.
#[derive(Debug, Clone, Copy, PartialEq, Eq)]
pub struct Members {
    /// Vehicle v is bit v, worth 2^v; bit 0 is never set.
    pub set: u64,
    /// The number of vehicles in the set.
    pub size: u32,
}

/// Whose properties a row of table E.1 gives.
#[derive(Debug, Clone, Copy, PartialEq, Eq, Hash)]
#[repr(u8)]
pub enum Level {
    /// The gateway's.
    Gateway = 0,
    /// The vehicle's.
    Vehicle = 1,
}

/// A row of table E.1, in a christening record.
#[derive(Debug, Clone, Copy, PartialEq, Eq)]
pub struct Property {
    /// Whose it is.
    pub level: Level,
    /// The octet of its place, from 1.
    pub octet: u8,
    /// The bit of its place; 0 is the most significant.
    pub bit: u8,
    /// Whether that bit is set.
    pub holds: bool,
}

/// Where a wrong bit lies.
#[derive(Debug, Clone, Copy, PartialEq, Eq)]
pub enum Place {
    /// In the field of a route.
    InRoute {
        /// Its number, from 0.
        route: usize,
        /// That of reading what is routed there.
        reason: Reason,
    },
    /// In no route.
    Outside,
}

/// The first bit at which the data after are not what the rules give.
#[derive(Debug, Clone, Copy, PartialEq, Eq)]
pub struct WrongBit {
    /// Its octet, from 0.
    pub octet: usize,
    /// Its place in it, 0 to 7; 0 is the most significant.
    pub bit: u8,
    /// Where it lies.
    pub place: Place,
}

/// What is found of a step of a recording.
#[derive(Debug, Clone, Copy, PartialEq, Eq)]
pub enum Finding {
    /// The data after are what the rules give.
    Right,
    /// They are not; this is the first wrong bit.
    Wrong(WrongBit),
}

/// What is said of the doors of a side.
#[derive(Debug, Clone, Copy, PartialEq, Eq, Hash)]
#[repr(u8)]
pub enum State {
    /// Every vehicle's are locked.
    Locked = 1,
    /// Some vehicle's are open.
    Open = 2,
    /// Not known: none is open, and not every vehicle's bit is live.
    Unknown = 0,
}

impl State {
    /// The state that has this number.
    pub(crate) const fn of(number: u32) -> Option<State> {
        match number {
            0 => Some(State::Unknown),
            1 => Some(State::Locked),
            2 => Some(State::Open),
            _ => None,
        }
    }
}

/// One side of a train.
#[derive(Debug, Clone, Copy, PartialEq, Eq)]
pub struct Side {
    /// What its doors are.
    pub state: State,
    /// The vehicles that kept it from locked: those that are open, and those of which it is not known.
    pub kept: Members,
}

/// Both sides of a train.
#[derive(Debug, Clone, Copy, PartialEq, Eq)]
pub struct Doors {
    /// The left side, by octet 20 bit 4.
    pub left: Side,
    /// The right side, by octet 20 bit 5.
    pub right: Side,
}

/// What an E-telegram says.
#[derive(Debug, Clone, Copy, PartialEq, Eq)]
pub struct EReading {
    /// Octets 7-8.
    pub code: u16,
    /// Whether the code is that of a report.
    pub report: bool,
    /// Octet 9, the order or status.
    pub status: u8,
}

/// What a report with remedy texts says beside its blocks.
#[derive(Debug, Clone, Copy, PartialEq, Eq)]
pub struct Remedies {
    /// Octets 21-22.
    pub language: u16,
    /// Octet 23, 0 or 1.
    pub ordered: u8,
    /// The number of blocks, 1 to 8.
    pub count: usize,
}

/// A block of such a report.
#[derive(Debug, Clone, Copy, PartialEq, Eq)]
pub struct Remedy<'a> {
    /// 1 to 8, of F1 to F8.
    pub key: u8,
    /// The part of the telegram that is its text.
    pub text: &'a [u8],
}
