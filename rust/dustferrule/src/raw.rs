//! `include/dustferrule.h`, line for line: what the proved library exports. (Its lists of refusals and reasons are [`crate::Refusal`] and
//! [`crate::Reason`], its forms are [`crate::Form`], its profiles [`crate::Profile`], what a difference breaks is a [`crate::Rule`], its kinds
//! are [`crate::Kind`], its units are those of [`crate::Shown`], its levels [`crate::Level`], and what it says of doors is a [`crate::State`].)
//!
//! What the caller owes: each pointer, with its length where it has one, names memory that can be read (and written, where it is `*mut`), no
//! longer than isize::MAX octets and aligned; an area that is written overlaps no other area of the same call; and no pointer is null, also
//! with length 0.

#![allow(non_camel_case_types, missing_docs)]

#[repr(C)]
#[derive(Debug, Clone, Copy)]
pub struct df_outcome {
    pub refusal: u32,
    pub carried: u64,
}

#[repr(C)]
#[derive(Debug, Clone, Copy)]
pub struct df_judged {
    pub refusal: u32,
    pub carried: u64,
    pub checks: u64,
    pub signals: u64,
    pub codes: u64,
    pub routes: u64,
    pub version: u64,
}

/// `which`: 0 no list was refused, 1 the first list, 2 the second; `extends`: 1 yes, 0 no.
#[repr(C)]
#[derive(Debug, Clone, Copy)]
pub struct df_extending {
    pub refusal: u32,
    pub which: u32,
    pub carried: u64,
    pub extends: u32,
}

/// `which`: as of [`df_extending`]; `found`: 1 a difference, 0 no more; `breaks`: 0 nothing; `first`, `second`: the number of all where there is
/// none.
#[repr(C)]
#[derive(Debug, Clone, Copy)]
pub struct df_change {
    pub refusal: u32,
    pub which: u32,
    pub carried: u64,
    pub found: u32,
    pub breaks: u64,
    pub key: u64,
    pub first: u64,
    pub second: u64,
}

/// `which`, `found`: as of [`df_change`].
#[repr(C)]
#[derive(Debug, Clone, Copy)]
pub struct df_range {
    pub refusal: u32,
    pub which: u32,
    pub carried: u64,
    pub found: u32,
    pub low: u64,
    pub high: u64,
}

/// `kind`: the header's `type`; `place`: of its check, 0 for none.
#[repr(C)]
#[derive(Debug, Clone, Copy)]
pub struct df_entry {
    pub refusal: u32,
    pub carried: u64,
    pub start: u64,
    pub width: u64,
    pub kind: u64,
    pub check: u64,
    pub since: u64,
    pub limit: u64,
    pub replacement: u64,
    pub place: u64,
}

#[repr(C)]
#[derive(Debug, Clone, Copy)]
pub struct df_found {
    pub refusal: u32,
    pub carried: u64,
    pub signal: u64,
}

#[repr(C)]
#[derive(Debug, Clone, Copy)]
pub struct df_serial_number {
    pub refusal: u32,
    pub carried: u64,
    pub serial: u64,
}

#[repr(C)]
#[derive(Debug, Clone, Copy)]
pub struct df_place {
    pub refusal: u32,
    pub place: u64,
}

#[repr(C)]
#[derive(Debug, Clone, Copy)]
pub struct df_gap_ms {
    pub refusal: u32,
    pub gap: u32,
}

#[repr(C)]
#[derive(Debug, Clone, Copy)]
pub struct df_reading {
    pub refusal: u32,
    pub reason: u32,
    pub carried: u64,
    pub value: u64,
}

/// `code`: where a code is shown; `unit`: 0 none, of a code, 1 km/h, 2 per cent, 3 A; `value`: in that unit.
#[repr(C)]
#[derive(Debug, Clone, Copy)]
pub struct df_shown {
    pub refusal: u32,
    pub reason: u32,
    pub carried: u64,
    pub code: u64,
    pub unit: u32,
    pub value: f32,
}

#[repr(C)]
#[derive(Debug, Clone, Copy)]
pub struct df_marshalled {
    pub refusal: u32,
    pub carried: u64,
    pub lives: u64,
}

#[repr(C)]
#[derive(Debug, Clone, Copy)]
pub struct df_members {
    pub refusal: u32,
    pub size: u32,
    pub set: u64,
}

/// `found`: 1 a row of table E.1, 0 no row of this number has a bit; `level`: 0 gateway, 1 vehicle; `holds`: 1 its bit is set.
#[repr(C)]
#[derive(Debug, Clone, Copy)]
pub struct df_property_row {
    pub found: u32,
    pub level: u32,
    pub octet: u32,
    pub bit: u32,
    pub holds: u32,
}

#[repr(C)]
#[derive(Debug, Clone, Copy)]
pub struct df_christened {
    pub refusal: u32,
    pub vehicles: u64,
}

/// `right`: 1 the data after are what the rules give, 0 a bit is wrong, or refused; `octet`, `bit`: the first wrong bit, by its octet, from 0, and
/// its place in it; `in_route`: 1 it lies in this `route`, whose reading has this `reason`, 0 in none.
#[repr(C)]
#[derive(Debug, Clone, Copy)]
pub struct df_checked {
    pub refusal: u32,
    pub right: u32,
    pub carried: u64,
    pub octet: u64,
    pub bit: u32,
    pub in_route: u32,
    pub route: u64,
    pub reason: u32,
}

/// `left`, `right`: 0 not known, 1 locked, 2 open; the vehicles that kept the side from locked, as of [`df_members`].
#[repr(C)]
#[derive(Debug, Clone, Copy)]
pub struct df_doors_summary {
    pub refusal: u32,
    pub left: u32,
    pub carried: u64,
    pub left_set: u64,
    pub left_size: u32,
    pub right: u32,
    pub right_set: u64,
    pub right_size: u32,
}

/// `report`: 1 a report, 0 a request.
#[repr(C)]
#[derive(Debug, Clone, Copy)]
pub struct df_e_reading {
    pub refusal: u32,
    pub code: u32,
    pub report: u32,
    pub status: u32,
}

#[repr(C)]
#[derive(Debug, Clone, Copy)]
pub struct df_remedies {
    pub refusal: u32,
    pub language: u32,
    pub ordered: u32,
    pub count: u32,
}

/// `found`: 1 a block, 0 no more; `at`: where in the telegram its text starts.
#[repr(C)]
#[derive(Debug, Clone, Copy)]
pub struct df_remedy {
    pub refusal: u32,
    pub found: u32,
    pub key: u32,
    pub at: u64,
    pub size: u64,
}

#[repr(C)]
#[derive(Debug, Clone, Copy)]
pub struct df_wrote {
    pub refusal: u32,
    pub size: u64,
}

extern "C" {
    pub fn df_judge(list: *const u8, list_len: usize, form: u8) -> df_judged;

    pub fn df_judge_profile(profile: u8, list: *const u8, list_len: usize, form: u8) -> df_judged;

    pub fn df_extends(
        a: *const u8,
        a_len: usize,
        form: u8,
        b: *const u8,
        b_len: usize,
        other: u8,
    ) -> df_extending;

    pub fn df_signal_change(
        a: *const u8,
        a_len: usize,
        form: u8,
        b: *const u8,
        b_len: usize,
        other: u8,
        from: u64,
    ) -> df_change;

    pub fn df_route_change(
        a: *const u8,
        a_len: usize,
        form: u8,
        b: *const u8,
        b_len: usize,
        other: u8,
        from: u64,
    ) -> df_change;

    pub fn df_codes_gained(
        a: *const u8,
        a_len: usize,
        form: u8,
        b: *const u8,
        b_len: usize,
        other: u8,
        key: u64,
        from: u64,
    ) -> df_range;

    pub fn df_signal_entry(list: *const u8, list_len: usize, form: u8, signal: u64) -> df_entry;

    pub fn df_find_signal(
        list: *const u8,
        list_len: usize,
        form: u8,
        kind: u64,
        start: u64,
    ) -> df_found;

    pub fn df_serial(list: *const u8, list_len: usize, form: u8, signal: u64) -> df_serial_number;

    pub fn df_to_form_2(
        list: *const u8,
        list_len: usize,
        out: *mut u8,
        out_len: usize,
    ) -> df_outcome;

    pub fn df_to_form_1(
        list: *const u8,
        list_len: usize,
        out: *mut u8,
        out_len: usize,
    ) -> df_outcome;

    pub fn df_check_place(bit: u64) -> df_place;

    pub fn df_take(
        store: *mut u8,
        store_len: usize,
        vehicle: u64,
        clock: u32,
        telegram: *const u8,
        telegram_len: usize,
    ) -> df_outcome;

    pub fn df_gap(store: *const u8, store_len: usize, vehicle: u64) -> df_gap_ms;

    pub fn df_sweep(store: *mut u8, store_len: usize, clock: u32) -> df_outcome;

    pub fn df_read(
        list: *const u8,
        list_len: usize,
        form: u8,
        store: *const u8,
        store_len: usize,
        clock: u32,
        vehicle: u64,
        signal: u64,
    ) -> df_reading;

    pub fn df_read_all(
        list: *const u8,
        list_len: usize,
        form: u8,
        store: *const u8,
        store_len: usize,
        clock: u32,
        vehicle: u64,
        values: *mut u64,
        values_len: usize,
        reasons: *mut u8,
        reasons_len: usize,
    ) -> df_outcome;

    pub fn df_read_train(
        list: *const u8,
        list_len: usize,
        form: u8,
        store: *const u8,
        store_len: usize,
        clock: u32,
        last: u64,
        values: *mut u64,
        values_len: usize,
        reasons: *mut u8,
        reasons_len: usize,
    ) -> df_outcome;

    pub fn df_show(
        list: *const u8,
        list_len: usize,
        form: u8,
        store: *const u8,
        store_len: usize,
        clock: u32,
        vehicle: u64,
        signal: u64,
        kind: u8,
    ) -> df_shown;

    pub fn df_marshal(
        list: *const u8,
        list_len: usize,
        form: u8,
        store: *const u8,
        store_len: usize,
        clock: u32,
        bus: *mut u8,
        bus_len: usize,
    ) -> df_marshalled;

    pub fn df_compose(
        list: *const u8,
        list_len: usize,
        form: u8,
        kind: u64,
        values: *const u64,
        values_len: usize,
        marks: *const u8,
        marks_len: usize,
        out: *mut u8,
        out_len: usize,
    ) -> df_outcome;

    pub fn df_relay(
        list: *const u8,
        list_len: usize,
        form: u8,
        store: *const u8,
        store_len: usize,
        clock: u32,
        vehicle: u64,
        out: *mut u8,
        out_len: usize,
    ) -> df_outcome;

    pub fn df_resolve(marks: *const u8, marks_len: usize, address: u64) -> df_members;

    pub fn df_property(octets: *const [u8; 56], row: u32) -> df_property_row;

    pub fn df_christen(
        records: *const u8,
        records_len: usize,
        pairs: *const u8,
        pairs_len: usize,
        marks: *mut [u8; 63],
    ) -> df_christened;

    pub fn df_check_step(
        list: *const u8,
        list_len: usize,
        form: u8,
        steps: usize,
        last: *const u8,
        last_len: usize,
        store: *const u8,
        store_len: usize,
        clock: u32,
        before: *const u8,
        before_len: usize,
        after: *const u8,
        after_len: usize,
    ) -> df_checked;

    pub fn df_doors(
        list: *const u8,
        list_len: usize,
        form: u8,
        store: *const u8,
        store_len: usize,
        clock: u32,
        marks: *const u8,
        marks_len: usize,
        address: u64,
    ) -> df_doors_summary;

    pub fn df_e_read(telegram: *const u8, telegram_len: usize) -> df_e_reading;

    pub fn df_e_answer(
        telegram: *const u8,
        telegram_len: usize,
        head: *const u8,
        head_len: usize,
        status: u8,
        out: *mut u8,
        out_len: usize,
    ) -> df_outcome;

    pub fn df_read_remedies(telegram: *const u8, telegram_len: usize) -> df_remedies;

    pub fn df_remedy_block(telegram: *const u8, telegram_len: usize, block: usize) -> df_remedy;

    pub fn df_write_remedies(
        head: *const [u8; 6],
        carried: *const [u8; 12],
        language: u16,
        ordered: u8,
        keys: *const u8,
        keys_len: usize,
        lengths: *const u16,
        lengths_len: usize,
        texts: *const u8,
        texts_len: usize,
        out: *mut u8,
        out_len: usize,
    ) -> df_wrote;
}
