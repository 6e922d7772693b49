//! A call with all it is lent, and what comes back.

use std::fmt;

use crate::list::List;

#[derive(Debug, Clone, Copy, PartialEq, Eq, PartialOrd, Ord)]
pub enum Call {
    Judge,
    JudgeProfile,
    Extends,
    SignalChange,
    RouteChange,
    CodesGained,
    SignalEntry,
    FindSignal,
    Serial,
    ToForm2,
    ToForm1,
    CheckPlace,
    Take,
    Gap,
    Sweep,
    Read,
    ReadAll,
    ReadTrain,
    Show,
    Marshal,
    Compose,
    Relay,
    Resolve,
    Property,
    Christen,
    CheckStep,
    Doors,
    ERead,
    EAnswer,
    ReadRemedies,
    RemedyBlock,
    WriteRemedies,
}

/// The parameters of a call: its areas of octets in order, which of them is written, and its numbers in order. Whether it has values, and writes
/// them, the call says itself.
pub struct Parameters {
    pub name: &'static str,
    pub areas: &'static [&'static str],
    pub written: Option<usize>,
    pub numbers: &'static [&'static str],
}

const fn takes(
    name: &'static str,
    areas: &'static [&'static str],
    written: Option<usize>,
    numbers: &'static [&'static str],
) -> Parameters {
    Parameters {
        name,
        areas,
        written,
        numbers,
    }
}

impl Call {
    pub const ALL: [Call; 32] = [
        Call::Judge,
        Call::JudgeProfile,
        Call::Extends,
        Call::SignalChange,
        Call::RouteChange,
        Call::CodesGained,
        Call::SignalEntry,
        Call::FindSignal,
        Call::Serial,
        Call::ToForm2,
        Call::ToForm1,
        Call::CheckPlace,
        Call::Take,
        Call::Gap,
        Call::Sweep,
        Call::Read,
        Call::ReadAll,
        Call::ReadTrain,
        Call::Show,
        Call::Marshal,
        Call::Compose,
        Call::Relay,
        Call::Resolve,
        Call::Property,
        Call::Christen,
        Call::CheckStep,
        Call::Doors,
        Call::ERead,
        Call::EAnswer,
        Call::ReadRemedies,
        Call::RemedyBlock,
        Call::WriteRemedies,
    ];

    #[rustfmt::skip]
    pub fn parameters(self) -> Parameters {
        match self {
            Call::Judge => takes("judge", &["list"], None, &["form"]),
            Call::JudgeProfile => takes("judge_profile", &["list"], None, &["form", "profile"]),
            Call::Extends => takes("extends", &["list A", "list B"], None, &["form A", "form B"]),
            Call::SignalChange => takes("signal_change", &["list A", "list B"], None, &["form A", "form B", "from"]),
            Call::RouteChange => takes("route_change", &["list A", "list B"], None, &["form A", "form B", "from"]),
            Call::CodesGained => takes("codes_gained", &["list A", "list B"], None, &["form A", "form B", "key", "from"]),
            Call::SignalEntry => takes("signal_entry", &["list"], None, &["form", "signal"]),
            Call::FindSignal => takes("find_signal", &["list"], None, &["form", "type", "start"]),
            Call::Serial => takes("serial", &["list"], None, &["form", "signal"]),
            Call::ToForm2 => takes("to_form_2", &["list", "out"], Some(1), &[]),
            Call::ToForm1 => takes("to_form_1", &["list", "out"], Some(1), &[]),
            Call::CheckPlace => takes("check_place", &[], None, &["bit"]),
            Call::Take => takes("take", &["store", "telegram"], Some(0), &["vehicle", "clock"]),
            Call::Gap => takes("gap", &["store"], None, &["vehicle"]),
            Call::Sweep => takes("sweep", &["store"], Some(0), &["clock"]),
            Call::Read => takes("read", &["list", "store"], None, &["form", "clock", "vehicle", "signal"]),
            Call::ReadAll => takes("read_all", &["list", "store", "reasons"], Some(2), &["form", "clock", "vehicle"]),
            Call::ReadTrain => takes("read_train", &["list", "store", "reasons"], Some(2), &["form", "clock", "last"]),
            Call::Show => takes("show", &["list", "store"], None, &["form", "clock", "vehicle", "signal", "kind"]),
            Call::Marshal => takes("marshal", &["list", "store", "data"], Some(2), &["form", "clock"]),
            Call::Compose => takes("compose", &["list", "marks", "out"], Some(2), &["form", "type"]),
            Call::Relay => takes("relay", &["list", "store", "out"], Some(2), &["form", "clock", "vehicle"]),
            Call::Resolve => takes("resolve", &["marks"], None, &["address"]),
            Call::Property => takes("property", &["record"], None, &["row"]),
            Call::Christen => takes("christen", &["records", "pairs", "63 marks"], Some(2), &[]),
            Call::CheckStep => takes("check_step", &["list", "last", "store", "before", "after"], None, &["form", "steps", "clock"]),
            Call::Doors => takes("doors", &["list", "store", "marks"], None, &["form", "clock", "address"]),
            Call::ERead => takes("e_read", &["telegram"], None, &[]),
            Call::EAnswer => takes("e_answer", &["telegram", "head", "out"], Some(2), &["status"]),
            Call::ReadRemedies => takes("read_remedies", &["telegram"], None, &[]),
            Call::RemedyBlock => takes("remedy_block", &["telegram"], None, &["block"]),
            Call::WriteRemedies => takes("write_remedies", &["octets 1-6", "octets 9-20", "keys", "texts", "out"], Some(4), &["language", "octet 23"]),
        }
    }

    /// Whether it writes its values.
    pub fn writes_values(self) -> bool {
        matches!(self, Call::ReadAll | Call::ReadTrain)
    }

    pub fn has_values(self) -> bool {
        self == Call::Compose || self.writes_values()
    }
}

/// Numbers for a profile: both that C has, and some that are none and say the plain coach's.
pub const PROFILES: [u64; 6] = [0, 1, 2, 3, 130, 255];

/// Numbers for a kind: all that C has, and some that are none and show the code.
pub const KINDS: [u64; 8] = [0, 1, 2, 3, 4, 5, 6, 255];

pub fn is_scaled(kind: u64) -> bool {
    (1..=4).contains(&kind)
}

#[derive(Debug, Clone, PartialEq)]
pub struct Case {
    pub call: Call,
    /// The areas of octets, in the order of the parameters.
    pub areas: Vec<Vec<u8>>,
    /// The values to compose, or to be read into; no other call has any.
    pub values: Vec<u64>,
    /// The lengths of the texts to be written; no other call has any.
    pub lengths: Vec<u16>,
    /// The numbers, in the order of the parameters.
    pub numbers: Vec<u64>,
}

impl Case {
    pub fn new(call: Call, areas: Vec<Vec<u8>>, numbers: Vec<u64>) -> Self {
        Case {
            call,
            areas,
            values: Vec::new(),
            lengths: Vec::new(),
            numbers,
        }
    }

    /// Whether an area has a number of octets that it must have.
    pub fn is_fixed(&self, area: usize) -> bool {
        // A store of another length is only refused; the others are arrays.
        let fixed = ["store", "octets 1-6", "octets 9-20", "record", "63 marks"];
        fixed.contains(&self.call.parameters().areas[area])
    }

    /// The number that says the form of the list in an area: the forms of a call's lists are its first numbers.
    pub fn form_at(&self, area: usize) -> u64 {
        match self.call {
            Call::ToForm2 => 1,
            Call::ToForm1 => 2,
            _ => self.numbers[area],
        }
    }

    /// What stands in an area, if it is a list with all its entries.
    pub fn list_at(&self, area: usize) -> Option<List> {
        let is_list = self.call.parameters().areas[area].starts_with("list");
        is_list
            .then(|| List::of(&self.areas[area], self.form_at(area)))
            .flatten()
    }

    /// A measure of what there is to look at: lengths, and bits that are set.
    pub fn size(&self) -> usize {
        let ones = |number: &u64| number.count_ones() as usize;
        let octets = |area: &Vec<u8>| {
            let ones: u32 = area.iter().map(|octet| octet.count_ones()).sum();
            area.len() + ones as usize
        };
        self.areas.iter().map(octets).sum::<usize>()
            + self
                .values
                .iter()
                .map(|value| 1 + ones(value))
                .sum::<usize>()
            + self
                .lengths
                .iter()
                .map(|&length| 1 + ones(&length.into()))
                .sum::<usize>()
            + self.numbers.iter().map(ones).sum::<usize>()
    }
}

impl fmt::Display for Case {
    fn fmt(&self, f: &mut fmt::Formatter) -> fmt::Result {
        let takes = self.call.parameters();
        writeln!(f, "{}", takes.name)?;
        for (name, area) in takes.areas.iter().zip(&self.areas) {
            writeln!(f, "  {name}, {} octets:{}", area.len(), Hex(area))?;
        }
        if self.call.has_values() {
            writeln!(f, "  {} values: {:X?}", self.values.len(), self.values)?;
        }
        if self.call == Call::WriteRemedies {
            writeln!(f, "  {} lengths: {:?}", self.lengths.len(), self.lengths)?;
        }
        for (name, number) in takes.numbers.iter().zip(&self.numbers) {
            writeln!(f, "  {name} {number}")?;
        }
        Ok(())
    }
}

/// Octets in hexadecimal, a line for each 32; lines of zeros are left out.
pub struct Hex<'a>(pub &'a [u8]);

impl fmt::Display for Hex<'_> {
    fn fmt(&self, f: &mut fmt::Formatter) -> fmt::Result {
        for (i, line) in self.0.chunks(32).enumerate() {
            if self.0.len() > 32 {
                if line.iter().all(|&octet| octet == 0) {
                    continue;
                }
                write!(f, "\n    {:5}:", 32 * i)?;
            }
            for pair in line.chunks(2) {
                write!(f, " ")?;
                pair.iter().try_for_each(|octet| write!(f, "{octet:02X}"))?;
            }
        }
        Ok(())
    }
}

/// An answer as the fields of the C header's results: whatever an answer does not use is 0.
#[derive(Debug, Clone, Copy, PartialEq, Eq, Default)]
pub struct Answer {
    pub refusal: u32,
    pub carried: u64,
    pub gives: [u64; 8],
}

impl Answer {
    /// A result with these fields behind the refusal and what it carries.
    pub fn with<const N: usize>(refusal: u32, carried: u64, fields: [u64; N]) -> Self {
        let mut gives = [0; 8];
        gives[..N].copy_from_slice(&fields);
        Answer {
            refusal,
            carried,
            gives,
        }
    }

    pub fn refused(number: impl Into<u32>, carried: u64) -> Self {
        Answer::with(number.into(), carried, [])
    }

    pub fn gives<const N: usize>(fields: [u64; N]) -> Self {
        Answer::with(0, 0, fields)
    }
}

impl fmt::Display for Answer {
    fn fmt(&self, f: &mut fmt::Formatter) -> fmt::Result {
        match self.refusal {
            0 => write!(f, "gives {:?}", self.gives)?,
            number => write!(
                f,
                "refusal {number} carrying {}, {:?}",
                self.carried, self.gives
            )?,
        }
        Ok(())
    }
}
