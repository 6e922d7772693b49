//! The paper's numbered answers: refusals and reasons, each with its words.

use core::error;
use core::fmt;

/// An enum of numbered things, each with its words: a line for each.
macro_rules! numbered {
    ($(#[$doc:meta])* $name:ident { $($variant:ident = $number:literal, $text:literal;)+ }) => {
        $(#[$doc])*
        #[non_exhaustive]
        #[derive(Debug, Clone, Copy, PartialEq, Eq, PartialOrd, Ord, Hash)]
        #[repr(u8)]
        pub enum $name {
            $(#[doc = $text] $variant = $number,)+
        }

        impl $name {
            /// All of them, by their numbers.
            pub const ALL: &[$name] = &[$($name::$variant,)+];

            /// The one that has this number.
            pub const fn of(number: u32) -> Option<$name> {
                match number {
                    $($number => Some($name::$variant),)+
                    _ => None,
                }
            }

            /// Its number.
            pub const fn number(self) -> u8 {
                self as u8
            }

            /// Its words.
            pub const fn text(self) -> &'static str {
                match self {
                    $($name::$variant => $text,)+
                }
            }
        }

        impl fmt::Display for $name {
            fn fmt(&self, f: &mut fmt::Formatter) -> fmt::Result {
                f.pad(self.text())
            }
        }
    };
}

numbered! {
    /// The refusals of document 01's table, and those of document 02. Later versions have more.
    Refusal {
        ListEnds = 1, "list ends inside a count or a section";
        CountAbove = 2, "count above its limit";
        EntryBroken = 3, "entry breaks its rule";
        OctetsAfter = 4, "octets after the routes";
        StoreLength = 5, "store not 8,631 octets";
        Vehicle = 6, "vehicle not 1-63";
        TelegramShort = 7, "R-telegram under 2 octets";
        ApplicationType = 8, "application type not 1";
        TelegramType = 9, "telegram type not 1-3";
        TelegramLength = 10, "length not the type's";
        NoSuchSignal = 11, "no such signal";
        DataShort = 12, "data shorter than a route's end";
        ValuesOrMarks = 13, "values or marks not one per entry";
        MarkAbove = 14, "a written mark above 3";
        ValueUnfit = 15, "a written value at or above 2^width, or its code not known";
        OutputLength = 16, "output length not the type's";
        ConsistLength = 17, "consist empty or above 63";
        ConsistRule = 18, "consist rule broken";
        AddressUnlisted = 19, "address not listed";
        NobodyMeets = 20, "nobody meets it";
        ELength = 21, "E-telegram length";
        ECode = 22, "code neither request nor report";
        AnswerToReport = 23, "answer to a report";
        HeadLength = 24, "head not 6 octets";
        OutputShort = 25, "output too short";
        ScaledKind = 26, "scaled kind, with width not 16";
        NoCheckPlace = 27, "no check place in the table";
        BlockPast = 28, "block runs past the end, or octets after the last";
        RemedyField = 29, "field out of its range or length that disagrees";
        KeyTwice = 30, "key twice";
        RecordsMisfit = 31, "record area not a whole number of records, or not as many pairs of marks as records";
        SerialSet = 32, "serial number set";
        FormOutput = 33, "output not of the needed length";
        Profile = 34, "profile rule broken";
        DoorMissing = 35, "door signal missing from the list";
        DataLengths = 36, "data areas differ in length";
        StepBroken = 37, "step does not follow on";
        StepsTooMany = 38, "more than 1,000 steps";
    }
}

numbered! {
    /// Why a reading gives the value that it gives; with 2 to 8 it is the replacement. Later versions have more.
    Reason {
        LiveOk = 0, "live ok";
        LiveForced = 1, "live forced";
        NeverHeard = 2, "never heard";
        TooOld = 3, "too old";
        TypeDoesNotCarry = 4, "type does not carry it";
        SinceAbove = 5, "since-version above the telegram's";
        MarkError = 6, "mark error";
        MarkUndefined = 7, "mark undefined";
        CodeNotKnown = 8, "code not known";
    }
}

impl Reason {
    /// Whether the value is the vehicle's own, ok or forced, and not the replacement.
    pub const fn is_live(self) -> bool {
        matches!(self, Reason::LiveOk | Reason::LiveForced)
    }
}

/// A call that was refused: by what, and what the refusal carries.
#[derive(Debug, Clone, Copy, PartialEq, Eq, Hash)]
pub struct Error {
    /// The refusal.
    pub refusal: Refusal,
    /// The offset of refusals 1 to 4 and 34, the signal number (from 0) of refusal 15; 0 with every other.
    pub carried: u64,
}

/// As the programs print it: `refused 1 at 36: list ends inside a count or a section`.
impl fmt::Display for Error {
    fn fmt(&self, f: &mut fmt::Formatter) -> fmt::Result {
        self.write(f, "")
    }
}

impl Error {
    /// With what stands behind the number and what it carries.
    fn write(&self, f: &mut fmt::Formatter, of: &str) -> fmt::Result {
        let Error { refusal, carried } = self;
        write!(f, "refused {}", refusal.number())?;
        match refusal.number() {
            1..=4 | 34 => write!(f, " at {carried}")?,
            15 => write!(f, " signal {carried}")?,
            _ => {}
        }
        write!(f, "{of}: {refusal}")
    }
}

impl error::Error for Error {}

/// A call on two lists that was refused: which list, and by what.
#[derive(Debug, Clone, Copy, PartialEq, Eq, Hash)]
pub enum Refused {
    /// The first list was refused.
    First(Error),
    /// The first list is good, and the second was refused.
    Second(Error),
}

/// As the programs print it: `refused 1 at 36 (second list): list ends inside a count or a section`.
impl fmt::Display for Refused {
    fn fmt(&self, f: &mut fmt::Formatter) -> fmt::Result {
        match self {
            Refused::First(error) => error.write(f, " (first list)"),
            Refused::Second(error) => error.write(f, " (second list)"),
        }
    }
}

impl error::Error for Refused {}
