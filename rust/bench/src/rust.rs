//! The independent implementation, each function a call as the proved one is, whose archive is never inlined into the bench.

use crate::lists::{Handed, Step};
use reference::{
    Change, CodeRange, Counts, Doors, EReading, Entry, Extends, Finding, Form, Kind, Members,
    Profile, Property, Reading, Refusal, Refused, Remedies, Remedy, ShownReading,
};

pub use crate::cases::rust_whole as whole;

#[inline(never)]
pub fn judge(list: &[u8], form: Form) -> Result<Counts, Refusal> {
    reference::judge(list, form)
}

#[inline(never)]
pub fn judge_profile(profile: Profile, list: &[u8], form: Form) -> Result<Counts, Refusal> {
    reference::judge_profile(profile, list, form)
}

#[inline(never)]
pub fn extends(a: &[u8], form: Form, b: &[u8], other: Form) -> Extends {
    reference::extends(a, form, b, other)
}

#[inline(never)]
pub fn signal_change(
    a: &[u8],
    form: Form,
    b: &[u8],
    other: Form,
    from: u64,
) -> Result<Option<Change>, Refused> {
    reference::signal_change(a, form, b, other, from)
}

#[inline(never)]
pub fn route_change(
    a: &[u8],
    form: Form,
    b: &[u8],
    other: Form,
    from: u64,
) -> Result<Option<Change>, Refused> {
    reference::route_change(a, form, b, other, from)
}

#[inline(never)]
pub fn codes_gained(
    a: &[u8],
    form: Form,
    b: &[u8],
    other: Form,
    key: u64,
    from: u64,
) -> Result<Option<CodeRange>, Refused> {
    reference::codes_gained(a, form, b, other, key, from)
}

#[inline(never)]
pub fn signal_entry(list: &[u8], form: Form, signal: u64) -> Result<Entry, Refusal> {
    reference::signal_entry(list, form, signal)
}

#[inline(never)]
pub fn find_signal(list: &[u8], form: Form, kind: u64, start: u64) -> Result<u64, Refusal> {
    reference::find_signal(list, form, kind, start)
}

#[inline(never)]
pub fn serial(list: &[u8], form: Form, signal: u64) -> Result<u16, Refusal> {
    reference::serial(list, form, signal)
}

#[inline(never)]
pub fn to_form_2(list: &[u8], out: &mut [u8]) -> Result<(), Refusal> {
    reference::to_form_2(list, out)
}

#[inline(never)]
pub fn to_form_1(list: &[u8], out: &mut [u8]) -> Result<(), Refusal> {
    reference::to_form_1(list, out)
}

#[inline(never)]
pub fn read(
    list: &[u8],
    form: Form,
    store: &[u8],
    now: u32,
    vehicle: u64,
    signal: u64,
) -> Result<Reading, Refusal> {
    reference::read(list, form, store, now, vehicle, signal)
}

#[inline(never)]
pub fn read_all(
    list: &[u8],
    form: Form,
    store: &[u8],
    now: u32,
    vehicle: u64,
    values: &mut [u64],
    reasons: &mut [u8],
) -> Result<(), Refusal> {
    reference::read_all(list, form, store, now, vehicle, values, reasons)
}

#[inline(never)]
pub fn read_train(
    list: &[u8],
    form: Form,
    store: &[u8],
    now: u32,
    last: u64,
    values: &mut [u64],
    reasons: &mut [u8],
) -> Result<(), Refusal> {
    reference::read_train(list, form, store, now, last, values, reasons)
}

#[inline(never)]
pub fn show(
    list: &[u8],
    form: Form,
    store: &[u8],
    now: u32,
    vehicle: u64,
    signal: u64,
    kind: Kind,
) -> Result<ShownReading, Refusal> {
    reference::show(list, form, store, now, vehicle, signal, kind)
}

#[inline(never)]
pub fn marshal(
    list: &[u8],
    form: Form,
    store: &[u8],
    now: u32,
    data: &mut [u8],
) -> Result<u64, Refusal> {
    reference::marshal(list, form, store, now, data)
}

#[inline(never)]
pub fn compose(
    list: &[u8],
    form: Form,
    kind: u64,
    values: &[u64],
    marks: &[u8],
    out: &mut [u8],
) -> Result<(), Refusal> {
    reference::compose(list, form, kind, values, marks, out)
}

#[inline(never)]
pub fn relay(
    list: &[u8],
    form: Form,
    store: &[u8],
    now: u32,
    vehicle: u64,
    out: &mut [u8],
) -> Result<(), Refusal> {
    reference::relay(list, form, store, now, vehicle, out)
}

#[inline(never)]
pub fn take(store: &mut [u8], vehicle: u64, now: u32, telegram: &[u8]) -> Result<(), Refusal> {
    reference::take(store, vehicle, now, telegram)
}

#[inline(never)]
pub fn gap(store: &[u8], vehicle: u64) -> Result<u32, Refusal> {
    reference::gap(store, vehicle)
}

#[inline(never)]
pub fn sweep(store: &mut [u8], now: u32) -> Result<(), Refusal> {
    reference::sweep(store, now)
}

#[inline(never)]
pub fn check_place(bit: u64) -> Result<u64, Refusal> {
    reference::check_place(bit)
}

#[inline(never)]
pub fn resolve(marks: &[u8], address: u64) -> Result<Members, Refusal> {
    reference::resolve(marks, address)
}

#[inline(never)]
pub fn property(record: &[u8; 56], row: u32) -> Option<Property> {
    reference::property(record, row)
}

#[inline(never)]
pub fn christen(records: &[u8], pairs: &[u8], marks: &mut [u8; 63]) -> Result<usize, Refusal> {
    reference::christen(records, pairs, marks)
}

#[inline(never)]
pub fn check_step(
    list: &[u8],
    form: Form,
    steps: usize,
    last: &[u8],
    step: Step,
) -> Result<Finding, Refusal> {
    let (store, before, after) = (step.store, step.before, step.after);
    reference::check_step(list, form, steps, last, store, step.now, before, after)
}

#[inline(never)]
pub fn doors(
    list: &[u8],
    form: Form,
    store: &[u8],
    now: u32,
    marks: &[u8],
    address: u64,
) -> Result<Doors, Refusal> {
    reference::doors(list, form, store, now, marks, address)
}

#[inline(never)]
pub fn e_read(telegram: &[u8]) -> Result<EReading, Refusal> {
    reference::e_read(telegram)
}

#[inline(never)]
pub fn read_remedies(telegram: &[u8]) -> Result<Remedies, Refusal> {
    reference::read_remedies(telegram)
}

#[inline(never)]
pub fn remedy_block(telegram: &[u8], block: usize) -> Result<Option<Remedy<'_>>, Refusal> {
    reference::remedy_block(telegram, block)
}

#[inline(never)]
pub fn write_remedies(handed: &Handed, out: &mut [u8]) -> Result<usize, Refusal> {
    reference::write_remedies(
        &handed.head,
        &handed.carried,
        handed.language,
        handed.ordered,
        &handed.keys,
        &handed.lengths,
        &handed.texts,
        out,
    )
}

#[inline(never)]
pub fn read_field(octets: &[u8], start: usize, width: usize) -> u64 {
    reference::read_field(octets, start, width)
}

#[inline(never)]
pub fn write_field(octets: &mut [u8], start: usize, width: usize, value: u64) {
    reference::write_field(octets, start, width, value)
}
