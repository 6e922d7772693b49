//! "The signal list": "Four sections in this order, each after a 2-octet count; the list ends with the
//! last."

use crate::form::Form;
use crate::refusal::Refusal;
use crate::sizes::SIGNAL_SIZE;

const MOST_CHECKS: usize = 64;
pub(crate) const MOST_SIGNALS: usize = 256;
const MOST_CODES: usize = 512;
const MOST_ROUTES: usize = 512;

/// "Width 1-48", which document 02 amends, C-15: "Let widths run from 1 to 64".
const WIDEST: u8 = 64;

/// Octets 3-40 end here, and octets 41-128 begin: "Type 0 (common) lies wholly in addresses 16-319; type
/// 1 (R1) or 2 (R2) wholly in 320-1023."
const COMMON_END: u32 = 320;
const TELEGRAM_END: u32 = 1024;

/// A check entry as it stands: "2 octets each: a bit address".
pub(crate) type CheckEntry = [u8; 2];
/// A signal entry as it stands, without its serial number.
pub(crate) type SignalEntry = [u8; SIGNAL_SIZE];
/// A known-code entry as it stands, 6 octets.
pub(crate) type CodeEntry = [u8; 6];
/// A route entry as it stands, 6 octets.
pub(crate) type RouteEntry = [u8; 6];

/// A signal entry as one number: "start (2), width (1), type (1), check (1), since-version (1), time limit
/// in ms (4), replacement (6)".
#[derive(Clone, Copy)]
pub(crate) struct Signal(u128);

impl Signal {
    #[inline]
    pub fn of(entry: &SignalEntry) -> Self {
        Signal(u128::from_be_bytes(*entry))
    }

    #[inline]
    pub fn start(self) -> u16 {
        (self.0 >> 112) as u16
    }

    #[inline]
    pub fn width(self) -> u8 {
        (self.0 >> 104) as u8
    }

    #[inline]
    pub fn kind(self) -> u8 {
        (self.0 >> 96) as u8
    }

    #[inline]
    pub fn check(self) -> u8 {
        (self.0 >> 88) as u8
    }

    #[inline]
    pub fn since(self) -> u8 {
        (self.0 >> 80) as u8
    }

    #[inline]
    pub fn limit(self) -> u32 {
        (self.0 >> 48) as u32
    }

    #[inline]
    pub fn replacement(self) -> u64 {
        self.0 as u64 & 0xFFFF_FFFF_FFFF
    }

    /// "R1, R2 and R3 all carry type 0; only R1 carries type 1, only R2 type 2."
    #[inline]
    pub fn carried_by(self, telegram_type: u8) -> bool {
        self.kind() == 0 || self.kind() == telegram_type
    }
}

/// "signal number from 0, low, high".
#[derive(Clone, Copy)]
pub(crate) struct Code {
    pub signal: u16,
    pub low: u16,
    pub high: u16,
}

impl Code {
    #[inline]
    pub fn of(&[s0, s1, l0, l1, h0, h1]: &CodeEntry) -> Self {
        Code {
            signal: u16::from_be_bytes([s0, s1]),
            low: u16::from_be_bytes([l0, l1]),
            high: u16::from_be_bytes([h0, h1]),
        }
    }
}

/// "signal (2), vehicle 1-63 (1), zero (1), destination start (2)".
#[derive(Clone, Copy)]
pub(crate) struct Route {
    pub signal: u16,
    pub vehicle: u8,
    pub zero: u8,
    pub start: u16,
}

impl Route {
    #[inline]
    pub fn of(&[s0, s1, vehicle, zero, d0, d1]: &RouteEntry) -> Self {
        Route {
            signal: u16::from_be_bytes([s0, s1]),
            vehicle,
            zero,
            start: u16::from_be_bytes([d0, d1]),
        }
    }
}

/// The signal entries of a list, in the octets of its form.
#[derive(Clone, Copy)]
pub(crate) struct Signals<'a> {
    octets: &'a [u8],
    size: usize,
}

impl<'a> Signals<'a> {
    #[inline]
    pub fn len(self) -> usize {
        self.octets.len() / self.size
    }

    /// All of them, with their serial numbers.
    #[inline]
    pub fn octets(self) -> &'a [u8] {
        self.octets
    }

    #[inline]
    pub fn iter(self) -> impl Iterator<Item = &'a SignalEntry> {
        let plain = |entry: &'a [u8]| entry.first_chunk();
        self.octets.chunks_exact(self.size).filter_map(plain)
    }

    #[inline]
    pub fn get(self, signal: usize) -> Option<&'a SignalEntry> {
        self.octets.get(signal * self.size..)?.first_chunk()
    }

    /// The entry of a signal that is there.
    #[inline]
    pub fn at(self, signal: usize) -> Signal {
        let mut entry = [0; SIGNAL_SIZE];
        entry.copy_from_slice(&self.octets[signal * self.size..][..SIGNAL_SIZE]);
        Signal::of(&entry)
    }

    /// What stands behind the entry of a signal that is there; 0 where nothing does.
    pub fn serial(self, signal: usize) -> u16 {
        let entry = &self.octets[signal * self.size..][..self.size];
        let octets = entry[SIGNAL_SIZE..].iter();
        octets.fold(0, |number, &octet| number << 8 | u16::from(octet))
    }
}

/// A list that was judged good, still in the octets it was lent in.
pub(crate) struct List<'a> {
    pub checks: &'a [CheckEntry],
    pub signals: Signals<'a>,
    pub codes: &'a [CodeEntry],
    pub routes: &'a [RouteEntry],
    /// "The list's version is its greatest since-version, 1 if it has no signal."
    pub version: u8,
}

impl<'a> List<'a> {
    /// "Judging goes section by section: count readable, count within its limit, entries all present,
    /// then the entries; the first bad entry ends the judging."
    pub fn judged(list: &'a [u8], form: Form) -> Result<Self, Refusal> {
        let at = |rest: &[u8]| list.len() - rest.len();

        let (checks, rest) = section(list, 0, MOST_CHECKS)?;
        good(0, 2, first_bad_check(checks))?;

        let offset = at(rest);
        let size = form.signal_size();
        let (octets, rest) = entries(rest, offset, MOST_SIGNALS, size)?;
        let signals = Signals { octets, size };
        let mut version = 1;
        let bad = first_bad_signal(signals, checks, &mut version);
        good(offset, size, bad)?;

        let offset = at(rest);
        let (codes, rest) = section(rest, offset, MOST_CODES)?;
        good(offset, 6, first_bad_code(codes, signals))?;

        let offset = at(rest);
        let (routes, rest) = section(rest, offset, MOST_ROUTES)?;
        good(offset, 6, first_bad_route(routes, signals))?;

        if !rest.is_empty() {
            return Err(Refusal::with(4, at(rest)));
        }
        Ok(List {
            checks,
            signals,
            codes,
            routes,
            version,
        })
    }

    /// What the judging program prints.
    pub fn counts(&self) -> Counts {
        Counts {
            checks: self.checks.len(),
            signals: self.signals.len(),
            codes: self.codes.len(),
            routes: self.routes.len(),
            version: usize::from(self.version),
        }
    }

    /// The place of the check a signal names, as a bit address; 0, which no check has, if it names none.
    /// "Check 0 is none, k names the k-th check".
    #[inline]
    pub fn check_place(&self, signal: Signal) -> u16 {
        match usize::from(signal.check()).checked_sub(1) {
            Some(check) => u16::from_be_bytes(self.checks[check]),
            None => 0,
        }
    }

    /// The known-code entries of one signal: "Signal numbers never fall".
    pub fn codes_of(&self, signal: usize) -> &'a [CodeEntry] {
        let first = self
            .codes
            .partition_point(|code| usize::from(Code::of(code).signal) < signal);
        CodesInOrder(&self.codes[first..]).next_of(signal)
    }

    /// The known-code entries of the signals, to be asked for in the order of the signals.
    #[inline]
    pub fn codes_in_order(&self) -> CodesInOrder<'a> {
        CodesInOrder(self.codes)
    }
}

/// The known-code entries not yet given away.
pub(crate) struct CodesInOrder<'a>(&'a [CodeEntry]);

impl<'a> CodesInOrder<'a> {
    /// Splits off the entries of `signal`; those of every signal before it must be gone.
    #[inline]
    pub fn next_of(&mut self, signal: usize) -> &'a [CodeEntry] {
        let other = |code| usize::from(Code::of(code).signal) != signal;
        let count = self.0.iter().position(other).unwrap_or(self.0.len());
        let (given, left) = self.0.split_at(count);
        self.0 = left;
        given
    }
}

/// Whether a value is below 2^width, for a width of 1 to 64: "at width 64 every value fits".
#[inline]
pub(crate) fn fits(value: u64, width: u8) -> bool {
    value <= u64::MAX >> (64 - width)
}

/// Whether a value is known to the signal with these entries. "A signal with no entry knows every code."
#[inline]
pub(crate) fn knows(codes: &[CodeEntry], value: u64) -> bool {
    let after = codes.partition_point(|code| u64::from(Code::of(code).low) <= value);
    match after.checked_sub(1) {
        Some(last) => value <= u64::from(Code::of(&codes[last]).high),
        None => codes.is_empty(),
    }
}

/// The entries, of `N` octets each, of a section, and the list behind them.
#[inline]
fn section<const N: usize>(
    rest: &[u8],
    offset: usize,
    most: usize,
) -> Result<(&[[u8; N]], &[u8]), Refusal> {
    let (octets, rest) = entries(rest, offset, most, N)?;
    Ok((octets.as_chunks().0, rest))
}

/// The octets of the entries, of `size` octets each, of the section whose count stands at the head of
/// `rest`, and the list behind them. "Each section is judged as the rest of the list from its count onward."
#[inline]
fn entries(
    rest: &[u8],
    offset: usize,
    most: usize,
    size: usize,
) -> Result<(&[u8], &[u8]), Refusal> {
    let Some((&count, rest)) = rest.split_first_chunk() else {
        return Err(Refusal::with(1, offset));
    };
    let count = usize::from(u16::from_be_bytes(count));
    if count > most {
        return Err(Refusal::with(2, offset));
    }
    rest.split_at_checked(count * size)
        .ok_or(Refusal::with(1, offset))
}

/// Refuses the entry at fault, if there is one, by its offset in the list: the section's count stands at
/// `offset`, and an entry has `size` octets.
#[inline]
fn good(offset: usize, size: usize, bad: Option<usize>) -> Result<(), Refusal> {
    match bad {
        Some(entry) => Err(Refusal::with(3, offset + 2 + entry * size)),
        None => Ok(()),
    }
}

/// "a bit address, even, 16 to 1022, strictly rising".
#[inline]
fn first_bad_check(checks: &[CheckEntry]) -> Option<usize> {
    let mut least = 16;
    checks.iter().position(|&check| {
        let place = u32::from(u16::from_be_bytes(check));
        let good = place % 2 == 0 && least <= place && place <= 1022;
        least = place + 1;
        !good
    })
}

/// "Types never fall from one entry to the next; within a type each start is at or past the end of the
/// field before. No field shares a bit with any check."
#[inline]
fn first_bad_signal(signals: Signals, checks: &[CheckEntry], version: &mut u8) -> Option<usize> {
    let place = |check: usize| {
        checks
            .get(check)
            .map(|&check| u32::from(u16::from_be_bytes(check)))
    };
    let mut kind = 0;
    // Where a field of this type may start, and the first check that ends past the starts so far.
    let mut least = 16;
    let mut check = 0;
    signals.iter().position(|entry| {
        let signal = Signal::of(entry);
        if signal.kind() > kind {
            kind = signal.kind();
            least = COMMON_END;
            check = 0;
        }
        let (common, end) = (kind == 0, if kind == 0 { COMMON_END } else { TELEGRAM_END });
        let first = u32::from(signal.start());
        let past = first + u32::from(signal.width());
        let good = signal.kind() == kind
            && kind <= 2
            && (1..=WIDEST).contains(&signal.width())
            && least <= first
            && past <= end
            && signal.since() >= 1
            && signal.limit() <= 600_000
            && fits(signal.replacement(), signal.width())
            && match usize::from(signal.check()).checked_sub(1) {
                None => true,
                Some(named) => place(named).is_some_and(|place| (place < COMMON_END) == common),
            };
        if !good {
            return true;
        }
        while place(check).is_some_and(|place| place + 2 <= first) {
            check += 1;
        }
        least = past;
        *version = signal.since().max(*version);
        place(check).is_some_and(|place| place < past)
    })
}

/// "The signal exists and has width at most 16; low ≤ high < 2^width. Signal numbers never fall; within a
/// signal, low exceeds the previous high by at least 2."
#[inline]
fn first_bad_code(codes: &[CodeEntry], signals: Signals) -> Option<usize> {
    let mut signal = 0;
    let mut least = 0;
    codes.iter().position(|entry| {
        let code = Code::of(entry);
        if code.signal > signal {
            signal = code.signal;
            least = 0;
        }
        let Some(width) = signals.get(usize::from(signal)).map(|signal| signal[2]) else {
            return true;
        };
        let good = code.signal == signal
            && width <= 16
            && least <= u32::from(code.low)
            && code.low <= code.high
            && u32::from(code.high) >> width == 0;
        least = u32::from(code.high) + 2;
        !good
    })
}

/// "The signal exists; the field ends at or before bit 2048; each start is at or past the end of the
/// route before."
#[inline]
fn first_bad_route(routes: &[RouteEntry], signals: Signals) -> Option<usize> {
    let mut least = 0;
    routes.iter().position(|entry| {
        let route = Route::of(entry);
        let Some(width) = signals
            .get(usize::from(route.signal))
            .map(|signal| signal[2])
        else {
            return true;
        };
        let start = u32::from(route.start);
        let end = start + u32::from(width);
        let good =
            (1..=63).contains(&route.vehicle) && route.zero == 0 && least <= start && end <= 2048;
        least = end;
        !good
    })
}

/// What the judging program prints of a good list.
#[derive(Debug, Clone, Copy, PartialEq, Eq)]
pub struct Counts {
    /// The number of checks.
    pub checks: usize,
    /// The number of signals.
    pub signals: usize,
    /// The number of known-code entries.
    pub codes: usize,
    /// The number of routes.
    pub routes: usize,
    /// "The list's version is its greatest since-version, 1 if it has no signal."
    pub version: usize,
}

/// Judges a signal list: refusals 1 to 4.
pub fn judge(list: &[u8], form: Form) -> Result<Counts, Refusal> {
    List::judged(list, form).map(|list| list.counts())
}
