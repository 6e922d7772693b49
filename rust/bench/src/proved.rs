//! The proved library, as its module lays out the calls: an answer of more than 16 octets is written where the first word points. On
//! x86-64 that is what C does with such an answer; on other machines it is not, so it is said here.

use reference::{
    Change, CodeRange, Counts, Doors, EReading, Entry, Extends, Finding, Form, Kind, Level,
    Members, Place, Profile, Property, Reading, Refusal, Refused, Remedies, Rule, Shown,
    ShownReading, Side, State, WrongBit,
};
use std::mem::MaybeUninit;

use crate::lists::{Handed, Step};

pub use crate::cases::proved_whole as whole;

#[repr(C)]
pub struct Outcome {
    refusal: u32,
    carried: u64,
}

#[repr(C)]
pub struct Judged {
    refusal: u32,
    carried: u64,
    checks: u64,
    signals: u64,
    codes: u64,
    routes: u64,
    version: u64,
}

#[repr(C)]
pub struct Extending {
    refusal: u32,
    which: u32,
    carried: u64,
    extends: u32,
}

#[repr(C)]
pub struct Changed {
    refusal: u32,
    which: u32,
    carried: u64,
    found: u32,
    breaks: u64,
    key: u64,
    first: u64,
    second: u64,
}

#[repr(C)]
pub struct Ranged {
    refusal: u32,
    which: u32,
    carried: u64,
    found: u32,
    low: u64,
    high: u64,
}

#[repr(C)]
pub struct SignalEntry {
    refusal: u32,
    carried: u64,
    start: u64,
    width: u64,
    kind: u64,
    check: u64,
    since: u64,
    limit: u64,
    replacement: u64,
    place: u64,
}

#[repr(C)]
pub struct Found {
    refusal: u32,
    carried: u64,
    signal: u64,
}

#[repr(C)]
pub struct Serial {
    refusal: u32,
    carried: u64,
    serial: u64,
}

#[repr(C)]
pub struct Read {
    refusal: u32,
    reason: u32,
    carried: u64,
    value: u64,
}

#[repr(C)]
pub struct Showing {
    refusal: u32,
    reason: u32,
    carried: u64,
    code: u64,
    unit: u32,
    value: f32,
}

#[repr(C)]
pub struct Marshalled {
    refusal: u32,
    carried: u64,
    lives: u64,
}

#[repr(C)]
pub struct Resolved {
    refusal: u32,
    size: u32,
    set: u64,
}

#[repr(C)]
pub struct Gap {
    refusal: u32,
    gap: u32,
}

#[repr(C)]
pub struct Placed {
    refusal: u32,
    place: u64,
}

#[repr(C)]
pub struct PropertyRow {
    found: u32,
    level: u32,
    octet: u32,
    bit: u32,
    holds: u32,
}

#[repr(C)]
pub struct Christened {
    refusal: u32,
    vehicles: u64,
}

#[repr(C)]
pub struct StepChecked {
    refusal: u32,
    right: u32,
    carried: u64,
    octet: u64,
    bit: u32,
    in_route: u32,
    route: u64,
    reason: u32,
}

#[repr(C)]
pub struct DoorsShown {
    refusal: u32,
    left: u32,
    carried: u64,
    left_set: u64,
    left_size: u32,
    right: u32,
    right_set: u64,
    right_size: u32,
}

#[repr(C)]
pub struct ERead {
    refusal: u32,
    code: u32,
    report: u32,
    status: u32,
}

#[repr(C)]
pub struct RemediesRead {
    refusal: u32,
    language: u32,
    ordered: u32,
    count: u32,
}

#[repr(C)]
pub struct RemedyRead {
    refusal: u32,
    found: u32,
    key: u32,
    at: u64,
    size: u64,
}

#[repr(C)]
pub struct Wrote {
    refusal: u32,
    size: u64,
}

pub type To<T> = *mut MaybeUninit<T>;

extern "C" {
    fn df_judge(to: To<Judged>, list: *const u8, list_len: usize, form: u8);
    #[rustfmt::skip]
    fn df_judge_profile(to: To<Judged>, profile: u8, list: *const u8, list_len: usize, form: u8);
    #[rustfmt::skip]
    fn df_extends(
        to: To<Extending>,
        a: *const u8,
        a_len: usize,
        form: u8,
        b: *const u8,
        b_len: usize,
        other: u8,
    );
    #[rustfmt::skip]
    fn df_signal_change(
        to: To<Changed>,
        a: *const u8,
        a_len: usize,
        form: u8,
        b: *const u8,
        b_len: usize,
        other: u8,
        from: u64,
    );
    #[rustfmt::skip]
    fn df_route_change(
        to: To<Changed>,
        a: *const u8,
        a_len: usize,
        form: u8,
        b: *const u8,
        b_len: usize,
        other: u8,
        from: u64,
    );
    #[rustfmt::skip]
    fn df_codes_gained(
        to: To<Ranged>,
        a: *const u8,
        a_len: usize,
        form: u8,
        b: *const u8,
        b_len: usize,
        other: u8,
        key: u64,
        from: u64,
    );
    #[rustfmt::skip]
    fn df_signal_entry(
        to: To<SignalEntry>,
        list: *const u8,
        list_len: usize,
        form: u8,
        signal: u64,
    );
    #[rustfmt::skip]
    fn df_find_signal(
        to: To<Found>,
        list: *const u8,
        list_len: usize,
        form: u8,
        kind: u64,
        start: u64,
    );
    fn df_serial(to: To<Serial>, list: *const u8, list_len: usize, form: u8, signal: u64);
    fn df_to_form_2(list: *const u8, list_len: usize, out: *mut u8, out_len: usize) -> Outcome;
    fn df_to_form_1(list: *const u8, list_len: usize, out: *mut u8, out_len: usize) -> Outcome;
    #[rustfmt::skip]
    fn df_read(
        to: To<Read>,
        list: *const u8,
        list_len: usize,
        form: u8,
        store: *const u8,
        store_len: usize,
        clock: u32,
        vehicle: u64,
        signal: u64,
    );
    #[rustfmt::skip]
    fn df_read_all(
        list: *const u8,
        list_len: usize,
        form: u8,
        store: *const u8,
        store_len: usize,
        clock: u32,
        vehicle: u64,
        values: *mut u64,
        values_len: usize,
        reasons: *mut u8,
        reasons_len: usize,
    ) -> Outcome;
    #[rustfmt::skip]
    fn df_read_train(
        list: *const u8,
        list_len: usize,
        form: u8,
        store: *const u8,
        store_len: usize,
        clock: u32,
        last: u64,
        values: *mut u64,
        values_len: usize,
        reasons: *mut u8,
        reasons_len: usize,
    ) -> Outcome;
    #[rustfmt::skip]
    fn df_show(
        to: To<Showing>,
        list: *const u8,
        list_len: usize,
        form: u8,
        store: *const u8,
        store_len: usize,
        clock: u32,
        vehicle: u64,
        signal: u64,
        kind: u8,
    );
    #[rustfmt::skip]
    fn df_marshal(
        to: To<Marshalled>,
        list: *const u8,
        list_len: usize,
        form: u8,
        store: *const u8,
        store_len: usize,
        clock: u32,
        data: *mut u8,
        data_len: usize,
    );
    #[rustfmt::skip]
    fn df_compose(
        list: *const u8,
        list_len: usize,
        form: u8,
        kind: u64,
        values: *const u64,
        values_len: usize,
        marks: *const u8,
        marks_len: usize,
        out: *mut u8,
        out_len: usize,
    ) -> Outcome;
    #[rustfmt::skip]
    fn df_relay(
        list: *const u8,
        list_len: usize,
        form: u8,
        store: *const u8,
        store_len: usize,
        clock: u32,
        vehicle: u64,
        out: *mut u8,
        out_len: usize,
    ) -> Outcome;
    #[rustfmt::skip]
    fn df_take(
        store: *mut u8,
        store_len: usize,
        vehicle: u64,
        clock: u32,
        telegram: *const u8,
        telegram_len: usize,
    ) -> Outcome;
    fn df_gap(store: *const u8, store_len: usize, vehicle: u64) -> Gap;
    fn df_sweep(store: *mut u8, store_len: usize, clock: u32) -> Outcome;
    fn df_check_place(bit: u64) -> Placed;
    fn df_resolve(marks: *const u8, marks_len: usize, address: u64) -> Resolved;
    fn df_property(to: To<PropertyRow>, octets: *const [u8; 56], row: u32);
    #[rustfmt::skip]
    fn df_christen(
        records: *const u8,
        records_len: usize,
        pairs: *const u8,
        pairs_len: usize,
        marks: *mut [u8; 63],
    ) -> Christened;
    #[rustfmt::skip]
    fn df_check_step(
        to: To<StepChecked>,
        list: *const u8,
        list_len: usize,
        form: u8,
        steps: usize,
        last: *const u8,
        last_len: usize,
        store: *const u8,
        store_len: usize,
        clock: u32,
        before: *const u8,
        before_len: usize,
        after: *const u8,
        after_len: usize,
    );
    #[rustfmt::skip]
    fn df_doors(
        to: To<DoorsShown>,
        list: *const u8,
        list_len: usize,
        form: u8,
        store: *const u8,
        store_len: usize,
        clock: u32,
        marks: *const u8,
        marks_len: usize,
        address: u64,
    );
    fn df_e_read(telegram: *const u8, telegram_len: usize) -> ERead;
    fn df_read_remedies(telegram: *const u8, telegram_len: usize) -> RemediesRead;
    #[rustfmt::skip]
    fn df_remedy_block(to: To<RemedyRead>, telegram: *const u8, telegram_len: usize, block: usize);
    #[rustfmt::skip]
    fn df_write_remedies(
        head: *const [u8; 6],
        carried: *const [u8; 12],
        language: u16,
        ordered: u8,
        keys: *const u8,
        keys_len: usize,
        lengths: *const u16,
        lengths_len: usize,
        texts: *const u8,
        texts_len: usize,
        out: *mut u8,
        out_len: usize,
    ) -> Wrote;

    fn proved_read_field(octets: *const u8, len: usize, start: usize, width: usize) -> u64;
    fn proved_write_field(octets: *mut u8, len: usize, start: usize, width: usize, value: u64);
}

// SAFETY, of every `unsafe` below: a slice names as much memory as its length says; one lent for writing overlaps no other; and a call
// that is handed a place for its answer always writes the whole answer.

#[inline(always)]
pub fn answer<T>(call: impl FnOnce(To<T>)) -> T {
    let mut to = MaybeUninit::uninit();
    call(&mut to);
    unsafe { to.assume_init() }
}

#[inline(always)]
pub fn judge(list: &[u8], form: Form) -> Judged {
    answer(|to| unsafe { df_judge(to, list.as_ptr(), list.len(), form as u8) })
}

#[inline(always)]
pub fn judge_profile(profile: Profile, list: &[u8], form: Form) -> Judged {
    let (profile, form) = (profile as u8, form as u8);
    answer(|to| unsafe { df_judge_profile(to, profile, list.as_ptr(), list.len(), form) })
}

#[inline(always)]
pub fn extends(a: &[u8], form: Form, b: &[u8], other: Form) -> Extending {
    let (form, other) = (form as u8, other as u8);
    answer(|to| unsafe { df_extends(to, a.as_ptr(), a.len(), form, b.as_ptr(), b.len(), other) })
}

#[inline(always)]
pub fn signal_change(a: &[u8], form: Form, b: &[u8], other: Form, from: u64) -> Changed {
    let (form, other) = (form as u8, other as u8);
    let (a, a_len, b, b_len) = (a.as_ptr(), a.len(), b.as_ptr(), b.len());
    answer(|to| unsafe { df_signal_change(to, a, a_len, form, b, b_len, other, from) })
}

#[inline(always)]
pub fn route_change(a: &[u8], form: Form, b: &[u8], other: Form, from: u64) -> Changed {
    let (form, other) = (form as u8, other as u8);
    let (a, a_len, b, b_len) = (a.as_ptr(), a.len(), b.as_ptr(), b.len());
    answer(|to| unsafe { df_route_change(to, a, a_len, form, b, b_len, other, from) })
}

#[inline(always)]
pub fn codes_gained(a: &[u8], form: Form, b: &[u8], other: Form, key: u64, from: u64) -> Ranged {
    let (form, other) = (form as u8, other as u8);
    let (a, a_len, b, b_len) = (a.as_ptr(), a.len(), b.as_ptr(), b.len());
    answer(|to| unsafe { df_codes_gained(to, a, a_len, form, b, b_len, other, key, from) })
}

#[inline(always)]
pub fn signal_entry(list: &[u8], form: Form, signal: u64) -> SignalEntry {
    answer(|to| unsafe { df_signal_entry(to, list.as_ptr(), list.len(), form as u8, signal) })
}

#[inline(always)]
pub fn find_signal(list: &[u8], form: Form, kind: u64, start: u64) -> Found {
    answer(|to| unsafe { df_find_signal(to, list.as_ptr(), list.len(), form as u8, kind, start) })
}

#[inline(always)]
pub fn serial(list: &[u8], form: Form, signal: u64) -> Serial {
    answer(|to| unsafe { df_serial(to, list.as_ptr(), list.len(), form as u8, signal) })
}

#[inline(always)]
pub fn to_form_2(list: &[u8], out: &mut [u8]) -> Outcome {
    unsafe { df_to_form_2(list.as_ptr(), list.len(), out.as_mut_ptr(), out.len()) }
}

#[inline(always)]
pub fn to_form_1(list: &[u8], out: &mut [u8]) -> Outcome {
    unsafe { df_to_form_1(list.as_ptr(), list.len(), out.as_mut_ptr(), out.len()) }
}

#[inline(always)]
pub fn read(list: &[u8], form: Form, store: &[u8], now: u32, vehicle: u64, signal: u64) -> Read {
    let (octets, slots) = (list.as_ptr(), store.as_ptr());
    answer(|to| unsafe {
        df_read(
            to,
            octets,
            list.len(),
            form as u8,
            slots,
            store.len(),
            now,
            vehicle,
            signal,
        )
    })
}

#[inline(always)]
pub fn read_all(
    list: &[u8],
    form: Form,
    store: &[u8],
    now: u32,
    vehicle: u64,
    values: &mut [u64],
    reasons: &mut [u8],
) -> Outcome {
    unsafe {
        df_read_all(
            list.as_ptr(),
            list.len(),
            form as u8,
            store.as_ptr(),
            store.len(),
            now,
            vehicle,
            values.as_mut_ptr(),
            values.len(),
            reasons.as_mut_ptr(),
            reasons.len(),
        )
    }
}

#[inline(always)]
pub fn read_train(
    list: &[u8],
    form: Form,
    store: &[u8],
    now: u32,
    last: u64,
    values: &mut [u64],
    reasons: &mut [u8],
) -> Outcome {
    unsafe {
        df_read_train(
            list.as_ptr(),
            list.len(),
            form as u8,
            store.as_ptr(),
            store.len(),
            now,
            last,
            values.as_mut_ptr(),
            values.len(),
            reasons.as_mut_ptr(),
            reasons.len(),
        )
    }
}

#[inline(always)]
pub fn show(
    list: &[u8],
    form: Form,
    store: &[u8],
    now: u32,
    vehicle: u64,
    signal: u64,
    kind: Kind,
) -> Showing {
    let (octets, slots) = (list.as_ptr(), store.as_ptr());
    answer(|to| unsafe {
        df_show(
            to,
            octets,
            list.len(),
            form as u8,
            slots,
            store.len(),
            now,
            vehicle,
            signal,
            kind as u8,
        )
    })
}

#[inline(always)]
pub fn marshal(list: &[u8], form: Form, store: &[u8], now: u32, data: &mut [u8]) -> Marshalled {
    let (octets, slots, fields) = (list.as_ptr(), store.as_ptr(), data.as_mut_ptr());
    answer(|to| unsafe {
        df_marshal(
            to,
            octets,
            list.len(),
            form as u8,
            slots,
            store.len(),
            now,
            fields,
            data.len(),
        )
    })
}

#[inline(always)]
pub fn compose(
    list: &[u8],
    form: Form,
    kind: u64,
    values: &[u64],
    marks: &[u8],
    out: &mut [u8],
) -> Outcome {
    unsafe {
        df_compose(
            list.as_ptr(),
            list.len(),
            form as u8,
            kind,
            values.as_ptr(),
            values.len(),
            marks.as_ptr(),
            marks.len(),
            out.as_mut_ptr(),
            out.len(),
        )
    }
}

#[inline(always)]
pub fn relay(
    list: &[u8],
    form: Form,
    store: &[u8],
    now: u32,
    vehicle: u64,
    out: &mut [u8],
) -> Outcome {
    unsafe {
        df_relay(
            list.as_ptr(),
            list.len(),
            form as u8,
            store.as_ptr(),
            store.len(),
            now,
            vehicle,
            out.as_mut_ptr(),
            out.len(),
        )
    }
}

#[inline(always)]
pub fn take(store: &mut [u8], vehicle: u64, now: u32, telegram: &[u8]) -> Outcome {
    let (slots, octets) = (store.as_mut_ptr(), telegram.as_ptr());
    unsafe { df_take(slots, store.len(), vehicle, now, octets, telegram.len()) }
}

#[inline(always)]
pub fn gap(store: &[u8], vehicle: u64) -> Gap {
    unsafe { df_gap(store.as_ptr(), store.len(), vehicle) }
}

#[inline(always)]
pub fn sweep(store: &mut [u8], now: u32) -> Outcome {
    unsafe { df_sweep(store.as_mut_ptr(), store.len(), now) }
}

#[inline(always)]
pub fn check_place(bit: u64) -> Placed {
    unsafe { df_check_place(bit) }
}

#[inline(always)]
pub fn resolve(marks: &[u8], address: u64) -> Resolved {
    unsafe { df_resolve(marks.as_ptr(), marks.len(), address) }
}

#[inline(always)]
pub fn property(record: &[u8; 56], row: u32) -> PropertyRow {
    answer(|to| unsafe { df_property(to, record, row) })
}

#[inline(always)]
pub fn christen(records: &[u8], pairs: &[u8], marks: &mut [u8; 63]) -> Christened {
    let (from, len) = (records.as_ptr(), records.len());
    unsafe { df_christen(from, len, pairs.as_ptr(), pairs.len(), marks) }
}

/// A step, behind so many, of which the last has the data after `last`.
#[inline(always)]
pub fn check_step(list: &[u8], form: Form, steps: usize, last: &[u8], step: Step) -> StepChecked {
    let (octets, slots, kept) = (list.as_ptr(), step.store.as_ptr(), last.as_ptr());
    answer(|to| unsafe {
        df_check_step(
            to,
            octets,
            list.len(),
            form as u8,
            steps,
            kept,
            last.len(),
            slots,
            step.store.len(),
            step.now,
            step.before.as_ptr(),
            step.before.len(),
            step.after.as_ptr(),
            step.after.len(),
        )
    })
}

#[inline(always)]
pub fn doors(
    list: &[u8],
    form: Form,
    store: &[u8],
    now: u32,
    marks: &[u8],
    address: u64,
) -> DoorsShown {
    let (octets, slots, train) = (list.as_ptr(), store.as_ptr(), marks.as_ptr());
    answer(|to| unsafe {
        df_doors(
            to,
            octets,
            list.len(),
            form as u8,
            slots,
            store.len(),
            now,
            train,
            marks.len(),
            address,
        )
    })
}

#[inline(always)]
pub fn e_read(telegram: &[u8]) -> ERead {
    unsafe { df_e_read(telegram.as_ptr(), telegram.len()) }
}

#[inline(always)]
pub fn read_remedies(telegram: &[u8]) -> RemediesRead {
    unsafe { df_read_remedies(telegram.as_ptr(), telegram.len()) }
}

#[inline(always)]
pub fn remedy_block(telegram: &[u8], block: usize) -> RemedyRead {
    answer(|to| unsafe { df_remedy_block(to, telegram.as_ptr(), telegram.len(), block) })
}

#[inline(always)]
pub fn write_remedies(handed: &Handed, out: &mut [u8]) -> Wrote {
    unsafe {
        df_write_remedies(
            &handed.head,
            &handed.carried,
            handed.language,
            handed.ordered,
            handed.keys.as_ptr(),
            handed.keys.len(),
            handed.lengths.as_ptr(),
            handed.lengths.len(),
            handed.texts.as_ptr(),
            handed.texts.len(),
            out.as_mut_ptr(),
            out.len(),
        )
    }
}

#[inline(always)]
pub fn read_field(octets: &[u8], start: usize, width: usize) -> u64 {
    unsafe { proved_read_field(octets.as_ptr(), octets.len(), start, width) }
}

#[inline(always)]
pub fn write_field(octets: &mut [u8], start: usize, width: usize, value: u64) {
    unsafe { proved_write_field(octets.as_mut_ptr(), octets.len(), start, width, value) }
}

/// What a call answers, as the independent implementation says it: the two sides are compared so.
pub trait Said {
    type As: std::fmt::Debug + PartialEq;
    fn said(self) -> Self::As;
}

fn unless_refused<T>(number: u32, carried: u64, answer: T) -> Result<T, Refusal> {
    match number {
        0 => Ok(answer),
        _ => Err(Refusal {
            number: number as u8,
            carried,
        }),
    }
}

impl Said for Outcome {
    type As = Result<(), Refusal>;
    fn said(self) -> Self::As {
        unless_refused(self.refusal, self.carried, ())
    }
}

impl Said for Judged {
    type As = Result<Counts, Refusal>;
    fn said(self) -> Self::As {
        let counts = Counts {
            checks: self.checks as usize,
            signals: self.signals as usize,
            codes: self.codes as usize,
            routes: self.routes as usize,
            version: self.version as usize,
        };
        unless_refused(self.refusal, self.carried, counts)
    }
}

impl Said for Extending {
    type As = Extends;
    fn said(self) -> Extends {
        match unless_refused(self.refusal, self.carried, self.extends) {
            Ok(0) => Extends::No,
            Ok(_) => Extends::Yes,
            Err(refusal) if self.which == 1 => Extends::First(refusal),
            Err(refusal) => Extends::Second(refusal),
        }
    }
}

fn unless_one_refused<T>(number: u32, which: u32, carried: u64, answer: T) -> Result<T, Refused> {
    unless_refused(number, carried, answer).map_err(|refusal| match which {
        1 => Refused::First(refusal),
        _ => Refused::Second(refusal),
    })
}

impl Said for Changed {
    type As = Result<Option<Change>, Refused>;
    fn said(self) -> Self::As {
        const RULES: [Rule; 6] = [
            Rule::Width,
            Rule::Check,
            Rule::Since,
            Rule::Codes,
            Rule::Removed,
            Rule::NotNewer,
        ];
        let change = (self.found != 0).then_some(Change {
            key: self.key,
            first: self.first,
            second: self.second,
            breaks: match self.breaks {
                0 => None,
                number => Some(RULES[number as usize - 1]),
            },
        });
        unless_one_refused(self.refusal, self.which, self.carried, change)
    }
}

impl Said for Ranged {
    type As = Result<Option<CodeRange>, Refused>;
    fn said(self) -> Self::As {
        let range = (self.found != 0).then_some(CodeRange {
            low: self.low as u16,
            high: self.high as u16,
        });
        unless_one_refused(self.refusal, self.which, self.carried, range)
    }
}

impl Said for SignalEntry {
    type As = Result<Entry, Refusal>;
    fn said(self) -> Self::As {
        let entry = Entry {
            start: self.start as u16,
            width: self.width as u8,
            kind: self.kind as u8,
            check: self.check as u8,
            since: self.since as u8,
            limit: self.limit as u32,
            replacement: self.replacement,
            place: self.place as u16,
        };
        unless_refused(self.refusal, self.carried, entry)
    }
}

impl Said for Found {
    type As = Result<u64, Refusal>;
    fn said(self) -> Self::As {
        unless_refused(self.refusal, self.carried, self.signal)
    }
}

impl Said for Serial {
    type As = Result<u16, Refusal>;
    fn said(self) -> Self::As {
        unless_refused(self.refusal, self.carried, self.serial as u16)
    }
}

impl Said for Read {
    type As = Result<Reading, Refusal>;
    fn said(self) -> Self::As {
        let reading = Reading {
            value: self.value,
            reason: self.reason as u8,
        };
        unless_refused(self.refusal, self.carried, reading)
    }
}

impl Said for Showing {
    type As = Result<ShownReading, Refusal>;
    fn said(self) -> Self::As {
        let shown = match self.unit {
            1 => Shown::Speed(self.value),
            2 => Shown::Percentage(self.value),
            3 => Shown::Current(self.value),
            _ => Shown::Code(self.code),
        };
        let reading = ShownReading {
            shown,
            reason: self.reason as u8,
        };
        unless_refused(self.refusal, self.carried, reading)
    }
}

impl Said for Marshalled {
    type As = Result<u64, Refusal>;
    fn said(self) -> Self::As {
        unless_refused(self.refusal, self.carried, self.lives)
    }
}

impl Said for Resolved {
    type As = Result<Members, Refusal>;
    fn said(self) -> Self::As {
        unless_refused(
            self.refusal,
            0,
            Members {
                set: self.set,
                size: self.size,
            },
        )
    }
}

impl Said for Gap {
    type As = Result<u32, Refusal>;
    fn said(self) -> Self::As {
        unless_refused(self.refusal, 0, self.gap)
    }
}

impl Said for Placed {
    type As = Result<u64, Refusal>;
    fn said(self) -> Self::As {
        unless_refused(self.refusal, 0, self.place)
    }
}

impl Said for PropertyRow {
    type As = Option<Property>;
    fn said(self) -> Self::As {
        (self.found != 0).then_some(Property {
            level: match self.level {
                0 => Level::Gateway,
                _ => Level::Vehicle,
            },
            octet: self.octet as u8,
            bit: self.bit as u8,
            holds: self.holds != 0,
        })
    }
}

impl Said for Christened {
    type As = Result<usize, Refusal>;
    fn said(self) -> Self::As {
        unless_refused(self.refusal, 0, self.vehicles as usize)
    }
}

impl Said for StepChecked {
    type As = Result<Finding, Refusal>;
    fn said(self) -> Self::As {
        let place = match self.in_route {
            0 => Place::Outside,
            _ => Place::InRoute {
                route: self.route as usize,
                reason: self.reason as u8,
            },
        };
        let finding = match self.right {
            0 => Finding::Wrong(WrongBit {
                octet: self.octet as usize,
                bit: self.bit as u8,
                place,
            }),
            _ => Finding::Right,
        };
        unless_refused(self.refusal, self.carried, finding)
    }
}

impl Said for DoorsShown {
    type As = Result<Doors, Refusal>;
    fn said(self) -> Self::As {
        let side = |state: u32, set, size| Side {
            state: match state {
                1 => State::Locked,
                2 => State::Open,
                _ => State::Unknown,
            },
            kept: Members { set, size },
        };
        let doors = Doors {
            left: side(self.left, self.left_set, self.left_size),
            right: side(self.right, self.right_set, self.right_size),
        };
        unless_refused(self.refusal, self.carried, doors)
    }
}

impl Said for ERead {
    type As = Result<EReading, Refusal>;
    fn said(self) -> Self::As {
        let reading = EReading {
            code: self.code as u16,
            report: self.report != 0,
            status: self.status as u8,
        };
        unless_refused(self.refusal, 0, reading)
    }
}

impl Said for RemediesRead {
    type As = Result<Remedies, Refusal>;
    fn said(self) -> Self::As {
        let remedies = Remedies {
            language: self.language as u16,
            ordered: self.ordered as u8,
            count: self.count as usize,
        };
        unless_refused(self.refusal, 0, remedies)
    }
}

/// A block: its key, where its text starts, and its octets.
pub type Block = (u8, usize, usize);

impl Said for RemedyRead {
    type As = Result<Option<Block>, Refusal>;
    fn said(self) -> Self::As {
        let block = (self.key as u8, self.at as usize, self.size as usize);
        unless_refused(self.refusal, 0, (self.found != 0).then_some(block))
    }
}

impl Said for Wrote {
    type As = Result<usize, Refusal>;
    fn said(self) -> Self::As {
        unless_refused(self.refusal, 0, self.size as usize)
    }
}
