//! Dustferrule, the proved gateway library for UIC 556 train buses, for Rust programs.
//!
//! Every call is total: for all octets and numbers it answers or refuses, as documents 01 and 02 say; a refusal changes no octet it was lent.
//! Nothing here allocates, blocks, keeps state or needs the standard library. The library itself is proved; these wrappers, which hand
//! slices over and name what comes back, are not.

#![no_std]
#![warn(missing_docs)]

mod answers;
mod numbers;
pub mod raw;

pub use answers::{
    Change, CodeRange, Counts, Doors, EReading, Entry, Extends, Finding, Form, Kind, Level,
    Members, Place, Profile, Property, Reading, Remedies, Remedy, Rule, Shown, ShownReading, Side,
    State, WrongBit,
};
pub use numbers::{Error, Reason, Refusal, Refused};

/// The length of a store: a slot for each of 63 vehicles, vehicle 1 first. A store of zeros has heard nobody.
// Spelled here too, since a program that links the library needs no other crate; `compare` does not build where `reference` has another.
pub const STORE_OCTETS: usize = 8631;

/// The answer, or the refusal where its number is not 0.
fn unless_refused<T>(number: u32, carried: u64, answer: T) -> Result<T, Error> {
    match number {
        0 => Ok(answer),
        _ => Err(Error {
            refusal: Refusal::of(number).unwrap_or_else(|| newer_library("refusal", number)),
            carried,
        }),
    }
}

/// The library gives no number but those of the header: another was linked than these wrappers are for.
#[cold]
fn newer_library(what: &str, number: u32) -> ! {
    panic!("the library that is linked gives {what} {number}, which these wrappers do not know: it is of another version")
}

// SAFETY, of every `unsafe` below: a slice names as much memory as its length says, is never null, also when empty, and one that is
// lent for writing overlaps no other.

/// What a good list holds, or its refusal.
fn counts(judged: raw::df_judged) -> Result<Counts, Error> {
    let counts = Counts {
        checks: judged.checks as usize,
        signals: judged.signals as usize,
        codes: judged.codes as usize,
        routes: judged.routes as usize,
        version: judged.version as usize,
    };
    unless_refused(judged.refusal, judged.carried, counts)
}

/// Judges a signal list. Refusals 1 to 4.
pub fn judge(list: &[u8], form: Form) -> Result<Counts, Error> {
    counts(unsafe { raw::df_judge(list.as_ptr(), list.len(), form as u8) })
}

/// Judges a signal list by a profile: what it accepts, [`judge`] accepts too, with the same answer. Refusals 1 to 4, then 34 at the first entry
/// that breaks a rule; a 65th signal does, whatever it is.
pub fn judge_profile(profile: Profile, list: &[u8], form: Form) -> Result<Counts, Error> {
    counts(unsafe { raw::df_judge_profile(profile as u8, list.as_ptr(), list.len(), form as u8) })
}

/// Whether list `b`, of form `other`, extends list `a`, of form `form`.
pub fn extends(a: &[u8], form: Form, b: &[u8], other: Form) -> Extends {
    let r = unsafe {
        raw::df_extends(
            a.as_ptr(),
            a.len(),
            form as u8,
            b.as_ptr(),
            b.len(),
            other as u8,
        )
    };
    match unless_refused(r.refusal, r.carried, r.extends) {
        Ok(0) => Extends::No,
        Ok(_) => Extends::Yes,
        Err(error) if r.which == 1 => Extends::First(error),
        Err(error) => Extends::Second(error),
    }
}

/// The answer, or which of two lists was refused.
fn unless_one_refused<T>(number: u32, which: u32, carried: u64, answer: T) -> Result<T, Refused> {
    unless_refused(number, carried, answer).map_err(|error| match which {
        1 => Refused::First(error),
        _ => Refused::Second(error),
    })
}

/// A difference, if there is one more.
fn change(r: raw::df_change) -> Result<Option<Change>, Refused> {
    let change = (r.found != 0).then(|| Change {
        key: r.key,
        first: r.first,
        second: r.second,
        breaks: match r.breaks as u32 {
            0 => None,
            number => Some(Rule::of(number).unwrap_or_else(|| newer_library("rule", number))),
        },
    });
    unless_one_refused(r.refusal, r.which, r.carried, change)
}

/// The next signal, at the key `from` or above, that list `b`, of form `other`, has and list `a`, of form `form`, has not, or the other way
/// round, or both have with another width, check place, since-version, time limit or replacement or, where the widths are equal and at most 16,
/// with other known codes. List `b` extends list `a` exactly if no difference breaks a rule. Refusals 1 to 4 of the first list that is refused.
pub fn signal_change(
    a: &[u8],
    form: Form,
    b: &[u8],
    other: Form,
    from: u64,
) -> Result<Option<Change>, Refused> {
    change(unsafe {
        raw::df_signal_change(
            a.as_ptr(),
            a.len(),
            form as u8,
            b.as_ptr(),
            b.len(),
            other as u8,
            from,
        )
    })
}

/// The next destination start, the bit `from` or above, at which one list alone has a route, or both have one of another vehicle or of another
/// signal, by type and start. Refusals 1 to 4 of the first list that is refused.
pub fn route_change(
    a: &[u8],
    form: Form,
    b: &[u8],
    other: Form,
    from: u64,
) -> Result<Option<Change>, Refused> {
    change(unsafe {
        raw::df_route_change(
            a.as_ptr(),
            a.len(),
            form as u8,
            b.as_ptr(),
            b.len(),
            other as u8,
            from,
        )
    })
}

/// The next range, as long as possible, of codes that the signal at a key knows in list `b` and not in list `a`, if it starts at the code `from`
/// or above; one that starts below is passed over. There is none where one list lacks the signal, or the widths differ or are above 16. With the
/// lists exchanged it gives what was lost. Refusals 1 to 4 of the first list that is refused.
pub fn codes_gained(
    a: &[u8],
    form: Form,
    b: &[u8],
    other: Form,
    key: u64,
    from: u64,
) -> Result<Option<CodeRange>, Refused> {
    let r = unsafe {
        raw::df_codes_gained(
            a.as_ptr(),
            a.len(),
            form as u8,
            b.as_ptr(),
            b.len(),
            other as u8,
            key,
            from,
        )
    };
    // A known code has two octets of the list.
    let range = (r.found != 0).then_some(CodeRange {
        low: r.low as u16,
        high: r.high as u16,
    });
    unless_one_refused(r.refusal, r.which, r.carried, range)
}

/// The entry of a signal by its number, from 0. Refusals 1 to 4, then 11.
pub fn signal_entry(list: &[u8], form: Form, signal: u64) -> Result<Entry, Error> {
    let r = unsafe { raw::df_signal_entry(list.as_ptr(), list.len(), form as u8, signal) };
    // An accepted entry has each number in as many octets as the list gives it.
    let entry = Entry {
        start: r.start as u16,
        width: r.width as u8,
        kind: r.kind as u8,
        check: r.check as u8,
        since: r.since as u8,
        limit: r.limit as u32,
        replacement: r.replacement,
        place: r.place as u16,
    };
    unless_refused(r.refusal, r.carried, entry)
}

/// The number, from 0, of the signal of a type (0, 1 or 2) that starts at a bit address. Refusals 1 to 4, then 11.
pub fn find_signal(list: &[u8], form: Form, kind: u64, start: u64) -> Result<u64, Error> {
    let r = unsafe { raw::df_find_signal(list.as_ptr(), list.len(), form as u8, kind, start) };
    unless_refused(r.refusal, r.carried, r.signal)
}

/// The serial number of a signal by its number, from 0; 0 for none, and in form 1. Refusals 1 to 4, then 11.
pub fn serial(list: &[u8], form: Form, signal: u64) -> Result<u16, Error> {
    let r = unsafe { raw::df_serial(list.as_ptr(), list.len(), form as u8, signal) };
    // Two octets of the list.
    unless_refused(r.refusal, r.carried, r.serial as u16)
}

/// Writes a list of form 1 in form 2: two octets more for each signal, every serial number 0. Refusals 1 to 4, then 33.
pub fn to_form_2(list: &[u8], out: &mut [u8]) -> Result<(), Error> {
    let r = unsafe { raw::df_to_form_2(list.as_ptr(), list.len(), out.as_mut_ptr(), out.len()) };
    unless_refused(r.refusal, r.carried, ())
}

/// Writes a list of form 2, in which every serial number is 0, in form 1: two octets less for each signal. Refusals 1 to 4, then 32, 33.
pub fn to_form_1(list: &[u8], out: &mut [u8]) -> Result<(), Error> {
    let r = unsafe { raw::df_to_form_1(list.as_ptr(), list.len(), out.as_mut_ptr(), out.len()) };
    unless_refused(r.refusal, r.carried, ())
}

/// The check place, as a bit address, of a bit of R1 octets 47-73. Refusal 27.
pub fn check_place(bit: u64) -> Result<u64, Error> {
    let r = unsafe { raw::df_check_place(bit) };
    unless_refused(r.refusal, 0, r.place)
}

/// Takes an R-telegram of a vehicle (1-63) at a clock value into the store. Refusals 5 to 10.
pub fn take(store: &mut [u8], vehicle: u64, now: u32, telegram: &[u8]) -> Result<(), Error> {
    let r = unsafe {
        raw::df_take(
            store.as_mut_ptr(),
            store.len(),
            vehicle,
            now,
            telegram.as_ptr(),
            telegram.len(),
        )
    };
    unless_refused(r.refusal, r.carried, ())
}

/// The gap between the last two telegrams taken from a vehicle (1-63), in ms modulo 2^32, whatever was swept between; after its first telegram
/// the clock value that it was taken at, and 0 if none was. Refusals 5, 6.
pub fn gap(store: &[u8], vehicle: u64) -> Result<u32, Error> {
    let r = unsafe { raw::df_gap(store.as_ptr(), store.len(), vehicle) };
    unless_refused(r.refusal, 0, r.gap)
}

/// Marks every slot as expired that was heard and is more than 600,000 ms old, the longest time limit of a list. From then on, until a new
/// telegram is taken, its signals with a limit are too old; those with none are read as before. Swept at least every 2,147,483,648 ms
/// (24.8 days), no telegram comes to look new as the counter comes round. Refusal 5.
pub fn sweep(store: &mut [u8], now: u32) -> Result<(), Error> {
    let r = unsafe { raw::df_sweep(store.as_mut_ptr(), store.len(), now) };
    unless_refused(r.refusal, r.carried, ())
}

/// Reads one signal (number from 0) of one vehicle. Refusals 1 to 4, then 5, 6, 11.
pub fn read(
    list: &[u8],
    form: Form,
    store: &[u8],
    now: u32,
    vehicle: u64,
    signal: u64,
) -> Result<Reading, Error> {
    let r = unsafe {
        raw::df_read(
            list.as_ptr(),
            list.len(),
            form as u8,
            store.as_ptr(),
            store.len(),
            now,
            vehicle,
            signal,
        )
    };
    let reading = Reading {
        value: r.value,
        reason: Reason::of(r.reason).unwrap_or_else(|| newer_library("reason", r.reason)),
    };
    unless_refused(r.refusal, r.carried, reading)
}

/// Reads every signal of one vehicle, with one judging of the list for all of them. `values` and `reasons` have an entry for each signal, in list
/// order, and each is what [`read`] gives, a reason as its number: [`Reason::of`] has the reason. Refusals 1 to 4, then 5, 6, 13 where they are not
/// one per signal.
pub fn read_all(
    list: &[u8],
    form: Form,
    store: &[u8],
    now: u32,
    vehicle: u64,
    values: &mut [u64],
    reasons: &mut [u8],
) -> Result<(), Error> {
    let r = unsafe {
        raw::df_read_all(
            list.as_ptr(),
            list.len(),
            form as u8,
            store.as_ptr(),
            store.len(),
            now,
            vehicle,
            values.as_mut_ptr(),
            values.len(),
            reasons.as_mut_ptr(),
            reasons.len(),
        )
    };
    unless_refused(r.refusal, r.carried, ())
}

/// The same of the vehicles 1 to `last`, vehicle after vehicle: signal k, from 0, of vehicle v is entry (v - 1) * signals + k. Refusals 1 to 4, then
/// 5, 6 where `last` is not 1 to 63, 13 where `values` or `reasons` are not `last` times as many as there are signals.
pub fn read_train(
    list: &[u8],
    form: Form,
    store: &[u8],
    now: u32,
    last: u64,
    values: &mut [u64],
    reasons: &mut [u8],
) -> Result<(), Error> {
    let r = unsafe {
        raw::df_read_train(
            list.as_ptr(),
            list.len(),
            form as u8,
            store.as_ptr(),
            store.len(),
            now,
            last,
            values.as_mut_ptr(),
            values.len(),
            reasons.as_mut_ptr(),
            reasons.len(),
        )
    };
    unless_refused(r.refusal, r.carried, ())
}

/// Reads one signal (number from 0) of one vehicle and shows the value of the reading, live or replacement, as the kind asks. Refusals 1 to 4,
/// then 5, 6, 11, 26.
pub fn show(
    list: &[u8],
    form: Form,
    store: &[u8],
    now: u32,
    vehicle: u64,
    signal: u64,
    kind: Kind,
) -> Result<ShownReading, Error> {
    let r = unsafe {
        raw::df_show(
            list.as_ptr(),
            list.len(),
            form as u8,
            store.as_ptr(),
            store.len(),
            now,
            vehicle,
            signal,
            kind as u8,
        )
    };
    let shown = match r.unit {
        0 => Shown::Code(r.code),
        1 => Shown::Speed(r.value),
        2 => Shown::Percentage(r.value),
        3 => Shown::Current(r.value),
        unit => newer_library("unit", unit),
    };
    let reading = ShownReading {
        shown,
        reason: Reason::of(r.reason).unwrap_or_else(|| newer_library("reason", r.reason)),
    };
    unless_refused(r.refusal, r.carried, reading)
}

/// Writes every route's value into its field of the vehicle bus data and gives the number of live ones. Refusals 1 to 5, 12.
pub fn marshal(
    list: &[u8],
    form: Form,
    store: &[u8],
    now: u32,
    bus: &mut [u8],
) -> Result<u64, Error> {
    let r = unsafe {
        raw::df_marshal(
            list.as_ptr(),
            list.len(),
            form as u8,
            store.as_ptr(),
            store.len(),
            now,
            bus.as_mut_ptr(),
            bus.len(),
        )
    };
    unless_refused(r.refusal, r.carried, r.lives)
}

/// Composes the R-telegram of type `kind` (1-3) into `out`: one value for each signal, one mark (0-3) for each check. Refusals 1 to 4,
/// then 9, 13 to 16.
pub fn compose(
    list: &[u8],
    form: Form,
    kind: u64,
    values: &[u64],
    marks: &[u8],
    out: &mut [u8],
) -> Result<(), Error> {
    let r = unsafe {
        raw::df_compose(
            list.as_ptr(),
            list.len(),
            form as u8,
            kind,
            values.as_ptr(),
            values.len(),
            marks.as_ptr(),
            marks.len(),
            out.as_mut_ptr(),
            out.len(),
        )
    };
    unless_refused(r.refusal, r.carried, ())
}

/// Composes anew into `out` the R-telegram that a vehicle (1-63) was last heard with, expired or not, as a gateway in the middle passes it on:
/// of the same type, with the list's version, each signal that the type carries as it is read, live or replaced. A check keeps its mark if
/// the type carries signals under it and all these are live, else it is error; what the list does not know is 0. Refusals 1 to 4, then 5, 6,
/// 9 where there is no such telegram, 15 where a replacement would go out that is no known code, 16.
pub fn relay(
    list: &[u8],
    form: Form,
    store: &[u8],
    now: u32,
    vehicle: u64,
    out: &mut [u8],
) -> Result<(), Error> {
    let r = unsafe {
        raw::df_relay(
            list.as_ptr(),
            list.len(),
            form as u8,
            store.as_ptr(),
            store.len(),
            now,
            vehicle,
            out.as_mut_ptr(),
            out.len(),
        )
    };
    unless_refused(r.refusal, r.carried, ())
}

/// The vehicles of a train that meet an address. A vehicle is one octet of marks: 1 leading, 2 coach, 4 tractive, 8 led, 16 sleeping;
/// the three high bits are not read. Refusals 17 to 20.
pub fn resolve(marks: &[u8], address: u64) -> Result<Members, Error> {
    let r = unsafe { raw::df_resolve(marks.as_ptr(), marks.len(), address) };
    let members = Members {
        set: r.set,
        size: r.size,
    };
    unless_refused(r.refusal, 0, members)
}

/// A row of source document 002, table E.1, by its number: its level and its place, and whether its bit is set in this christening record;
/// nothing where the table has no such row. Rows 1 to 132 and 141 to 152 are there. Never refused.
pub fn property(record: &[u8; 56], row: u32) -> Option<Property> {
    let r = unsafe { raw::df_property(record, row) };
    // A row that is found has its place in the record.
    (r.found != 0).then_some(Property {
        level: match r.level {
            0 => Level::Gateway,
            _ => Level::Vehicle,
        },
        octet: r.octet as u8,
        bit: r.bit as u8,
        holds: r.holds != 0,
    })
}

/// Builds the consist from christening records, 56 octets for each vehicle, vehicle 1 first, and gives the number of vehicles. Of each pair of
/// marks, 1 is leading and 8 led; its other bits are not read. Writes a mark octet for each vehicle, as [`resolve`] takes them, into the first
/// octets of `marks`; the others stay. Sleeping is 51/4; tractive 24/0 or 24/1; a coach has any of 50/0, 50/1, 51/0, 51/3 and 51/4. Refusals 31,
/// then 17 and 18.
pub fn christen(records: &[u8], pairs: &[u8], marks: &mut [u8; 63]) -> Result<usize, Error> {
    let r = unsafe {
        raw::df_christen(
            records.as_ptr(),
            records.len(),
            pairs.as_ptr(),
            pairs.len(),
            marks,
        )
    };
    unless_refused(r.refusal, 0, r.vehicles as usize)
}

/// What is found of a step, by the numbers that say it.
fn finding(r: raw::df_checked) -> Finding {
    if r.right != 0 {
        return Finding::Right;
    }
    let place = match r.in_route {
        0 => Place::Outside,
        _ => Place::InRoute {
            route: r.route as usize,
            reason: Reason::of(r.reason).unwrap_or_else(|| newer_library("reason", r.reason)),
        },
    };
    Finding::Wrong(WrongBit {
        octet: r.octet as usize,
        bit: r.bit as u8,
        place,
    })
}

/// Checks one step of a supplier's recording of marshalling: the data after are right exactly if [`marshal`] would make them of the data before, bits
/// outside the routes included. What goes from step to step is the caller's: `steps` is how many steps of the recording were right before it, and
/// `last` are the data after of the last of them, which with 0 steps are not looked at. The first step that is refused or wrong ends the judging; with
/// no steps a recording is accepted if [`judge`] accepts its list. Refusals 38 with 1,000 steps or more, then 1 to 4, then 5, 12 for the data before,
/// 36, 37.
// As the header has it.
#[allow(clippy::too_many_arguments)]
pub fn check_step(
    list: &[u8],
    form: Form,
    steps: usize,
    last: &[u8],
    store: &[u8],
    now: u32,
    before: &[u8],
    after: &[u8],
) -> Result<Finding, Error> {
    let r = unsafe {
        raw::df_check_step(
            list.as_ptr(),
            list.len(),
            form as u8,
            steps,
            last.as_ptr(),
            last.len(),
            store.as_ptr(),
            store.len(),
            now,
            before.as_ptr(),
            before.len(),
            after.as_ptr(),
            after.len(),
        )
    };
    unless_refused(r.refusal, r.carried, finding(r))
}

/// One side, by the numbers that say it.
fn side(state: u32, set: u64, size: u32) -> Side {
    Side {
        state: State::of(state).unwrap_or_else(|| newer_library("state", state)),
        kept: Members { set, size },
    }
}

/// What a driver's desk shows of the doors, by octet 20 bits 4, left, and 5, right, of each vehicle that meets an address, 66 for all; marks and
/// address as of [`resolve`]. A side is locked exactly if every such vehicle's bit is live and 1, open if any such vehicle's is live and 0, else not
/// known. The list must have both bits as common signals of width 1. Refusals 1 to 4, then 5, then 35, then 17 to 20.
pub fn doors(
    list: &[u8],
    form: Form,
    store: &[u8],
    now: u32,
    marks: &[u8],
    address: u64,
) -> Result<Doors, Error> {
    let r = unsafe {
        raw::df_doors(
            list.as_ptr(),
            list.len(),
            form as u8,
            store.as_ptr(),
            store.len(),
            now,
            marks.as_ptr(),
            marks.len(),
            address,
        )
    };
    let doors = Doors {
        left: side(r.left, r.left_set, r.left_size),
        right: side(r.right, r.right_set, r.right_size),
    };
    unless_refused(r.refusal, r.carried, doors)
}

/// Reads an E-telegram's code, request or report, and octet 9. It has 9 to 1,024 octets, with the code 8A08 up to 2,110. Refusals 21, 22.
pub fn e_read(telegram: &[u8]) -> Result<EReading, Error> {
    let r = unsafe { raw::df_e_read(telegram.as_ptr(), telegram.len()) };
    let reading = EReading {
        code: r.code as u16,
        report: r.report != 0,
        status: r.status as u8,
    };
    unless_refused(r.refusal, 0, reading)
}

/// Answers a request: head (6 octets), report code and status into the first 9 octets of `out`. Refusals 21 to 25.
pub fn e_answer(telegram: &[u8], head: &[u8], status: u8, out: &mut [u8]) -> Result<(), Error> {
    let r = unsafe {
        raw::df_e_answer(
            telegram.as_ptr(),
            telegram.len(),
            head.as_ptr(),
            head.len(),
            status,
            out.as_mut_ptr(),
            out.len(),
        )
    };
    unless_refused(r.refusal, r.carried, ())
}

/// Reads a report with remedy texts, telegram 8.8A of code 8A08: its language, octet 23 and the number of its blocks. Octets 1-6, 9-20 and the
/// reserve are not read. Refusals 21, also under 30 octets; then 29 for octets 7-24, also for another code; then that of the first bad block,
/// its lowest of 28 (the block, or its first 6 octets, runs past the end), 29 and 30; then 28 for octets after the last.
pub fn read_remedies(telegram: &[u8]) -> Result<Remedies, Error> {
    let r = unsafe { raw::df_read_remedies(telegram.as_ptr(), telegram.len()) };
    // An accepted telegram has each number in as many octets as the paper gives it.
    let remedies = Remedies {
        language: r.language as u16,
        ordered: r.ordered as u8,
        count: r.count as usize,
    };
    unless_refused(r.refusal, 0, remedies)
}

/// A block of such a telegram by its number, from 0: its key, and the part of the telegram that is its text. Refusals as of [`read_remedies`].
pub fn remedy_block(telegram: &[u8], block: usize) -> Result<Option<Remedy<'_>>, Error> {
    let r = unsafe { raw::df_remedy_block(telegram.as_ptr(), telegram.len(), block) };
    // The text of a block that is found lies in the telegram.
    let remedy = (r.found != 0).then(|| Remedy {
        key: r.key as u8,
        text: &telegram[r.at as usize..][..r.size as usize],
    });
    unless_refused(r.refusal, 0, remedy)
}

/// Writes such a telegram into the first octets of `out` and gives their number: `head` is octets 1-6, `carried` octets 9-20, `ordered`
/// octet 23, and the reserve is 0. Each block has a key and a length; the texts stand in one area, one behind the other. Refusals 29 where there
/// are not as many keys as lengths or the lengths do not add up to the area; then 25 where `out` has under 30 octets and, for each block, 6 and
/// those of its text; then 29 for `ordered` above 1 or a number of blocks that is not 1 to 8; then that of the first bad block: 29 for a key that
/// is not 1 to 8 or a text of an odd number of octets or of more than 254, else 30.
// As the header has it.
#[allow(clippy::too_many_arguments)]
pub fn write_remedies(
    head: &[u8; 6],
    carried: &[u8; 12],
    language: u16,
    ordered: u8,
    keys: &[u8],
    lengths: &[u16],
    texts: &[u8],
    out: &mut [u8],
) -> Result<usize, Error> {
    let r = unsafe {
        raw::df_write_remedies(
            head,
            carried,
            language,
            ordered,
            keys.as_ptr(),
            keys.len(),
            lengths.as_ptr(),
            lengths.len(),
            texts.as_ptr(),
            texts.len(),
            out.as_mut_ptr(),
            out.len(),
        )
    };
    unless_refused(r.refusal, 0, r.size as usize)
}
