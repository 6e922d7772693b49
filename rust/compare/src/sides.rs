//! The implementations to be held against each other, each behind the same function.

use crate::case::{Answer, Call};
use dustferrule::raw;

/// What a call is lent: its areas of octets, its values, its lengths, its numbers.
pub struct Lent<'a> {
    pub areas: Vec<&'a mut [u8]>,
    pub values: &'a mut [u64],
    pub lengths: &'a [u16],
    pub numbers: &'a [u64],
}

pub type Side = fn(Call, Lent) -> Answer;

/// A call's parameters do not match what was lent: the generator is wrong, not a library.
fn misfit(call: Call) -> ! {
    panic!("{call:?}: areas or numbers do not fit")
}

/// An area that is an array.
fn array<const N: usize>(call: Call, area: &[u8]) -> &[u8; N] {
    area.try_into().unwrap_or_else(|_| misfit(call))
}

/// An area that is an array, to be written.
fn array_mut<const N: usize>(call: Call, area: &mut [u8]) -> &mut [u8; N] {
    area.try_into().unwrap_or_else(|_| misfit(call))
}

/// Where in the telegram a text starts: it is a part of it, and no copy.
fn start_in(telegram: &[u8], text: &[u8]) -> u64 {
    let [first, start] = [telegram, text].map(|octets| octets.as_ptr().addr());
    start.wrapping_sub(first) as u64
}

fn refused_by_reference(refusal: reference::Refusal) -> Answer {
    Answer::refused(refusal.number, refusal.carried)
}

fn refused_by_wrappers(error: dustferrule::Error) -> Answer {
    Answer::refused(error.refusal.number(), error.carried)
}

/// `reference` and the wrappers of `dustferrule` have the same names and shapes, but for their refusals: one text serves for both.
macro_rules! side {
    ($side:ident, $library:ident, $refused:ident) => {
        pub fn $side(call: Call, mut lent: Lent) -> Answer {
            use $library::{
                Change, CodeRange, Counts, Extends, Finding, Form, Kind, Place, Profile, Refused,
                Shown, WrongBit,
            };
            let refused = $refused;
            // As C says it: any number but 2 is form 1.
            let form = |number: u64| match number {
                2 => Form::Two,
                _ => Form::One,
            };
            // Any profile but 2 is the plain coach's.
            let profile_of = |number: u64| match number {
                2 => Profile::DrivingTrailer,
                _ => Profile::PlainCoach,
            };
            // And any kind but these is the code.
            let kind_of = |number: u64| match number {
                1 => Kind::Speed,
                2 => Kind::Percentage,
                3 => Kind::SignedPercentage,
                4 => Kind::Current,
                _ => Kind::Code,
            };
            let done = |()| Answer::default();
            let counts = |n: Counts| {
                let counts = [n.checks, n.signals, n.codes, n.routes, n.version];
                Answer::gives(counts.map(|count| count as u64))
            };
            // Which of two lists was refused is the second of what is given.
            let which =
                |refused: Answer, which| Answer::with(refused.refusal, refused.carried, [0, which]);
            let one_refused = |of: Refused| match of {
                Refused::First(refusal) => which(refused(refusal), 1),
                Refused::Second(refusal) => which(refused(refusal), 2),
            };
            let change = |change: Option<Change>| match change {
                Some(c) => {
                    let breaks = c.breaks.map_or(0, |rule| rule as u64);
                    Answer::gives([1, 0, c.key, c.first, c.second, breaks])
                }
                None => Answer::default(),
            };
            let range = |range: Option<CodeRange>| match range {
                Some(r) => Answer::gives([1, 0, r.low.into(), r.high.into()]),
                None => Answer::default(),
            };
            let place = |place: Place| match place {
                Place::InRoute { route, reason } => [1, route as u64, reason as u64],
                Place::Outside => [0; 3],
            };
            let finding = |finding: Finding| match finding {
                Finding::Right => Answer::gives([1]),
                Finding::Wrong(WrongBit {
                    octet,
                    bit,
                    place: at,
                }) => {
                    let [in_route, route, reason] = place(at);
                    Answer::gives([0, octet as u64, bit.into(), in_route, route, reason])
                }
            };
            let result = match (call, &mut lent.areas[..], lent.numbers) {
                (Call::Judge, [list], &[said]) => $library::judge(list, form(said)).map(counts),
                (Call::JudgeProfile, [list], &[said, profile]) => {
                    $library::judge_profile(profile_of(profile), list, form(said)).map(counts)
                }
                (Call::Extends, [a, b], &[said, other]) => {
                    Ok(match $library::extends(a, form(said), b, form(other)) {
                        Extends::Yes => Answer::gives([1]),
                        Extends::No => Answer::gives([0]),
                        Extends::First(refusal) => which(refused(refusal), 1),
                        Extends::Second(refusal) => which(refused(refusal), 2),
                    })
                }
                (Call::SignalChange, [a, b], &[said, other, from]) => {
                    let found = $library::signal_change(a, form(said), b, form(other), from);
                    Ok(found.map_or_else(one_refused, change))
                }
                (Call::RouteChange, [a, b], &[said, other, from]) => {
                    let found = $library::route_change(a, form(said), b, form(other), from);
                    Ok(found.map_or_else(one_refused, change))
                }
                (Call::CodesGained, [a, b], &[said, other, key, from]) => {
                    let found = $library::codes_gained(a, form(said), b, form(other), key, from);
                    Ok(found.map_or_else(one_refused, range))
                }
                (Call::SignalEntry, [list], &[said, signal]) => {
                    $library::signal_entry(list, form(said), signal).map(|e| {
                        Answer::gives([
                            e.start.into(),
                            e.width.into(),
                            e.kind.into(),
                            e.check.into(),
                            e.since.into(),
                            e.limit.into(),
                            e.replacement,
                            e.place.into(),
                        ])
                    })
                }
                (Call::FindSignal, [list], &[said, kind, start]) => {
                    $library::find_signal(list, form(said), kind, start)
                        .map(|number| Answer::gives([number]))
                }
                (Call::Serial, [list], &[said, signal]) => {
                    $library::serial(list, form(said), signal)
                        .map(|serial| Answer::gives([serial.into()]))
                }
                (Call::ToForm2, [list, out], []) => $library::to_form_2(list, out).map(done),
                (Call::ToForm1, [list, out], []) => $library::to_form_1(list, out).map(done),
                (Call::CheckPlace, [], &[bit]) => {
                    $library::check_place(bit).map(|place| Answer::gives([place]))
                }
                (Call::Take, [store, telegram], &[vehicle, clock]) => {
                    $library::take(store, vehicle, clock as u32, telegram).map(done)
                }
                (Call::Gap, [store], &[vehicle]) => {
                    $library::gap(store, vehicle).map(|gap| Answer::gives([gap.into()]))
                }
                (Call::Sweep, [store], &[clock]) => $library::sweep(store, clock as u32).map(done),
                (Call::Read, [list, store], &[said, clock, vehicle, signal]) => {
                    $library::read(list, form(said), store, clock as u32, vehicle, signal)
                        .map(|r| Answer::gives([r.value, r.reason as u64]))
                }
                (Call::ReadAll, [list, store, reasons], &[said, clock, vehicle]) => {
                    let (form, clock, values) = (form(said), clock as u32, &mut *lent.values);
                    $library::read_all(list, form, store, clock, vehicle, values, reasons).map(done)
                }
                (Call::ReadTrain, [list, store, reasons], &[said, clock, last]) => {
                    let (form, clock, values) = (form(said), clock as u32, &mut *lent.values);
                    $library::read_train(list, form, store, clock, last, values, reasons).map(done)
                }
                (Call::Show, [list, store], &[said, clock, vehicle, signal, kind]) => {
                    let (form, clock, kind) = (form(said), clock as u32, kind_of(kind));
                    $library::show(list, form, store, clock, vehicle, signal, kind).map(|r| {
                        let (code, unit, value) = match r.shown {
                            Shown::Code(code) => (code, 0, 0.0),
                            Shown::Speed(x) => (0, 1, x),
                            Shown::Percentage(x) => (0, 2, x),
                            Shown::Current(x) => (0, 3, x),
                        };
                        Answer::gives([r.reason as u64, code, unit, value.to_bits().into()])
                    })
                }
                (Call::Marshal, [list, store, data], &[said, clock]) => {
                    $library::marshal(list, form(said), store, clock as u32, data)
                        .map(|lives| Answer::gives([lives]))
                }
                (Call::Compose, [list, marks, out], &[said, kind]) => {
                    $library::compose(list, form(said), kind, lent.values, marks, out).map(done)
                }
                (Call::Relay, [list, store, out], &[said, clock, vehicle]) => {
                    $library::relay(list, form(said), store, clock as u32, vehicle, out).map(done)
                }
                (Call::Resolve, [marks], &[address]) => $library::resolve(marks, address)
                    .map(|members| Answer::gives([members.set, members.size.into()])),
                (Call::Property, [record], &[row]) => {
                    let found = $library::property(array(call, record), row as u32);
                    Ok(found.map_or(Answer::default(), |p| {
                        let (level, holds) = (p.level as u64, p.holds.into());
                        Answer::gives([1, level, p.octet.into(), p.bit.into(), holds])
                    }))
                }
                (Call::Christen, [records, pairs, marks], []) => {
                    $library::christen(records, pairs, array_mut(call, marks))
                        .map(|vehicles| Answer::gives([vehicles as u64]))
                }
                (Call::CheckStep, [list, last, store, before, after], &[said, steps, clock]) => {
                    let (form, steps, clock) = (form(said), steps as usize, clock as u32);
                    $library::check_step(list, form, steps, last, store, clock, before, after)
                        .map(finding)
                }
                (Call::Doors, [list, store, marks], &[said, clock, address]) => {
                    $library::doors(list, form(said), store, clock as u32, marks, address).map(
                        |doors| {
                            let [left, right] = [doors.left, doors.right].map(|side| {
                                let kept = side.kept;
                                [side.state as u64, kept.set, kept.size.into()]
                            });
                            Answer::gives([left[0], left[1], left[2], right[0], right[1], right[2]])
                        },
                    )
                }
                (Call::ERead, [telegram], []) => $library::e_read(telegram)
                    .map(|r| Answer::gives([r.code.into(), r.report.into(), r.status.into()])),
                (Call::EAnswer, [telegram, head, out], &[status]) => {
                    $library::e_answer(telegram, head, status as u8, out).map(done)
                }
                (Call::ReadRemedies, [telegram], []) => $library::read_remedies(telegram)
                    .map(|m| Answer::gives([m.language.into(), m.ordered.into(), m.count as u64])),
                (Call::RemedyBlock, [telegram], &[block]) => {
                    let found = $library::remedy_block(telegram, block as usize);
                    found.map(|found| match found {
                        Some(b) => {
                            let (at, size) = (start_in(telegram, b.text), b.text.len());
                            Answer::gives([1, b.key.into(), at, size as u64])
                        }
                        None => Answer::default(),
                    })
                }
                (Call::WriteRemedies, [head, carried, keys, texts, out], &[language, ordered]) => {
                    let (head, carried) = (array(call, head), array(call, carried));
                    let (language, ordered) = (language as u16, ordered as u8);
                    let lengths = lent.lengths;
                    $library::write_remedies(
                        head, carried, language, ordered, keys, lengths, texts, out,
                    )
                    .map(|size| Answer::gives([size as u64]))
                }
                _ => misfit(call),
            };
            result.unwrap_or_else(refused)
        }
    };
}

side!(by_reference, reference, refused_by_reference);
side!(by_wrappers, dustferrule, refused_by_wrappers);

fn outcome(r: raw::df_outcome) -> Answer {
    Answer::refused(r.refusal, r.carried)
}

fn judged(r: raw::df_judged) -> Answer {
    let counts = [r.checks, r.signals, r.codes, r.routes, r.version];
    Answer::with(r.refusal, r.carried, counts)
}

fn change(r: raw::df_change) -> Answer {
    let (found, which) = (r.found.into(), r.which.into());
    let gives = [found, which, r.key, r.first, r.second, r.breaks];
    Answer::with(r.refusal, r.carried, gives)
}

/// The library as C calls it: every field of a result is kept, also those that an answer does not use.
pub fn by_header(call: Call, mut lent: Lent) -> Answer {
    match (call, &mut lent.areas[..], lent.numbers) {
        (Call::Judge, [list], &[form]) => {
            judged(unsafe { raw::df_judge(list.as_ptr(), list.len(), form as u8) })
        }
        (Call::JudgeProfile, [list], &[form, profile]) => {
            let (list, len) = (list.as_ptr(), list.len());
            judged(unsafe { raw::df_judge_profile(profile as u8, list, len, form as u8) })
        }
        (Call::Extends, [a, b], &[form, other]) => {
            let (form, other) = (form as u8, other as u8);
            let (a, a_len, b, b_len) = (a.as_ptr(), a.len(), b.as_ptr(), b.len());
            let r = unsafe { raw::df_extends(a, a_len, form, b, b_len, other) };
            Answer::with(r.refusal, r.carried, [r.extends.into(), r.which.into()])
        }
        (Call::SignalChange, [a, b], &[form, other, from]) => {
            let (form, other) = (form as u8, other as u8);
            let (a, a_len, b, b_len) = (a.as_ptr(), a.len(), b.as_ptr(), b.len());
            change(unsafe { raw::df_signal_change(a, a_len, form, b, b_len, other, from) })
        }
        (Call::RouteChange, [a, b], &[form, other, from]) => {
            let (form, other) = (form as u8, other as u8);
            let (a, a_len, b, b_len) = (a.as_ptr(), a.len(), b.as_ptr(), b.len());
            change(unsafe { raw::df_route_change(a, a_len, form, b, b_len, other, from) })
        }
        (Call::CodesGained, [a, b], &[form, other, key, from]) => {
            let (form, other) = (form as u8, other as u8);
            let (a, a_len, b, b_len) = (a.as_ptr(), a.len(), b.as_ptr(), b.len());
            let r = unsafe { raw::df_codes_gained(a, a_len, form, b, b_len, other, key, from) };
            let gives = [r.found.into(), r.which.into(), r.low, r.high];
            Answer::with(r.refusal, r.carried, gives)
        }
        (Call::SignalEntry, [list], &[form, signal]) => {
            let (list, len) = (list.as_ptr(), list.len());
            let r = unsafe { raw::df_signal_entry(list, len, form as u8, signal) };
            let entry = [
                r.start,
                r.width,
                r.kind,
                r.check,
                r.since,
                r.limit,
                r.replacement,
                r.place,
            ];
            Answer::with(r.refusal, r.carried, entry)
        }
        (Call::FindSignal, [list], &[form, kind, start]) => {
            let (list, len) = (list.as_ptr(), list.len());
            let r = unsafe { raw::df_find_signal(list, len, form as u8, kind, start) };
            Answer::with(r.refusal, r.carried, [r.signal])
        }
        (Call::Serial, [list], &[form, signal]) => {
            let r = unsafe { raw::df_serial(list.as_ptr(), list.len(), form as u8, signal) };
            Answer::with(r.refusal, r.carried, [r.serial])
        }
        (Call::ToForm2, [list, out], []) => outcome(unsafe {
            raw::df_to_form_2(list.as_ptr(), list.len(), out.as_mut_ptr(), out.len())
        }),
        (Call::ToForm1, [list, out], []) => outcome(unsafe {
            raw::df_to_form_1(list.as_ptr(), list.len(), out.as_mut_ptr(), out.len())
        }),
        (Call::CheckPlace, [], &[bit]) => {
            let r = unsafe { raw::df_check_place(bit) };
            Answer::with(r.refusal, 0, [r.place])
        }
        (Call::Take, [store, telegram], &[vehicle, clock]) => {
            let (to, from) = (store.as_mut_ptr(), telegram.as_ptr());
            outcome(unsafe {
                raw::df_take(to, store.len(), vehicle, clock as u32, from, telegram.len())
            })
        }
        (Call::Gap, [store], &[vehicle]) => {
            let r = unsafe { raw::df_gap(store.as_ptr(), store.len(), vehicle) };
            Answer::with(r.refusal, 0, [r.gap.into()])
        }
        (Call::Sweep, [store], &[clock]) => {
            outcome(unsafe { raw::df_sweep(store.as_mut_ptr(), store.len(), clock as u32) })
        }
        (Call::Read, [list, store], &[form, clock, vehicle, signal]) => {
            let (list, len, form) = (list.as_ptr(), list.len(), form as u8);
            let (from, from_len, clock) = (store.as_ptr(), store.len(), clock as u32);
            let r =
                unsafe { raw::df_read(list, len, form, from, from_len, clock, vehicle, signal) };
            Answer::with(r.refusal, r.carried, [r.value, r.reason.into()])
        }
        (Call::ReadAll | Call::ReadTrain, [list, store, reasons], &[form, clock, of]) => {
            let read = match call {
                Call::ReadAll => raw::df_read_all,
                _ => raw::df_read_train,
            };
            let (list, len, form) = (list.as_ptr(), list.len(), form as u8);
            let (from, from_len, clock) = (store.as_ptr(), store.len(), clock as u32);
            let (values, number) = (lent.values.as_mut_ptr(), lent.values.len());
            let (why, why_len) = (reasons.as_mut_ptr(), reasons.len());
            outcome(unsafe {
                read(
                    list, len, form, from, from_len, clock, of, values, number, why, why_len,
                )
            })
        }
        (Call::Show, [list, store], &[form, clock, vehicle, signal, kind]) => {
            let (list, len, form) = (list.as_ptr(), list.len(), form as u8);
            let (from, from_len, clock) = (store.as_ptr(), store.len(), clock as u32);
            let r = unsafe {
                raw::df_show(
                    list, len, form, from, from_len, clock, vehicle, signal, kind as u8,
                )
            };
            let value = r.value.to_bits().into();
            let gives = [r.reason.into(), r.code, r.unit.into(), value];
            Answer::with(r.refusal, r.carried, gives)
        }
        (Call::Marshal, [list, store, data], &[form, clock]) => {
            let (list, len, form) = (list.as_ptr(), list.len(), form as u8);
            let (from, from_len, clock) = (store.as_ptr(), store.len(), clock as u32);
            let (to, to_len) = (data.as_mut_ptr(), data.len());
            let r = unsafe { raw::df_marshal(list, len, form, from, from_len, clock, to, to_len) };
            Answer::with(r.refusal, r.carried, [r.lives])
        }
        (Call::Compose, [list, marks, out], &[form, kind]) => {
            let (list, len, to) = (list.as_ptr(), list.len(), out.as_mut_ptr());
            let (values, number) = (lent.values.as_ptr(), lent.values.len());
            let (marks, checks) = (marks.as_ptr(), marks.len());
            outcome(unsafe {
                raw::df_compose(
                    list,
                    len,
                    form as u8,
                    kind,
                    values,
                    number,
                    marks,
                    checks,
                    to,
                    out.len(),
                )
            })
        }
        (Call::Relay, [list, store, out], &[form, clock, vehicle]) => {
            let (list, len, form) = (list.as_ptr(), list.len(), form as u8);
            let (from, from_len, clock) = (store.as_ptr(), store.len(), clock as u32);
            let (to, to_len) = (out.as_mut_ptr(), out.len());
            outcome(unsafe {
                raw::df_relay(list, len, form, from, from_len, clock, vehicle, to, to_len)
            })
        }
        (Call::Resolve, [marks], &[address]) => {
            let r = unsafe { raw::df_resolve(marks.as_ptr(), marks.len(), address) };
            Answer::with(r.refusal, 0, [r.set, r.size.into()])
        }
        (Call::Property, [record], &[row]) => {
            let r = unsafe { raw::df_property(array(call, record), row as u32) };
            let gives = [r.found, r.level, r.octet, r.bit, r.holds];
            Answer::with(0, 0, gives.map(u64::from))
        }
        (Call::Christen, [records, pairs, marks], []) => {
            let (from, len, marks) = (records.as_ptr(), records.len(), array_mut(call, marks));
            let r = unsafe { raw::df_christen(from, len, pairs.as_ptr(), pairs.len(), marks) };
            Answer::with(r.refusal, 0, [r.vehicles])
        }
        (Call::CheckStep, [list, last, store, before, after], &[form, steps, clock]) => {
            let r = unsafe {
                raw::df_check_step(
                    list.as_ptr(),
                    list.len(),
                    form as u8,
                    steps as usize,
                    last.as_ptr(),
                    last.len(),
                    store.as_ptr(),
                    store.len(),
                    clock as u32,
                    before.as_ptr(),
                    before.len(),
                    after.as_ptr(),
                    after.len(),
                )
            };
            let [right, bit, in_route, reason] =
                [r.right, r.bit, r.in_route, r.reason].map(u64::from);
            let gives = [right, r.octet, bit, in_route, r.route, reason];
            Answer::with(r.refusal, r.carried, gives)
        }
        (Call::Doors, [list, store, marks], &[form, clock, address]) => {
            let (list, len, form) = (list.as_ptr(), list.len(), form as u8);
            let (from, from_len, clock) = (store.as_ptr(), store.len(), clock as u32);
            let (train, vehicles) = (marks.as_ptr(), marks.len());
            let r = unsafe {
                raw::df_doors(
                    list, len, form, from, from_len, clock, train, vehicles, address,
                )
            };
            let left = [r.left.into(), r.left_set, r.left_size.into()];
            let right = [r.right.into(), r.right_set, r.right_size.into()];
            let gives = [left[0], left[1], left[2], right[0], right[1], right[2]];
            Answer::with(r.refusal, r.carried, gives)
        }
        (Call::ERead, [telegram], []) => {
            let r = unsafe { raw::df_e_read(telegram.as_ptr(), telegram.len()) };
            let gives = [r.code.into(), r.report.into(), r.status.into()];
            Answer::with(r.refusal, 0, gives)
        }
        (Call::EAnswer, [telegram, head, out], &[status]) => {
            let (telegram, len) = (telegram.as_ptr(), telegram.len());
            let (head, head_len) = (head.as_ptr(), head.len());
            let (to, to_len) = (out.as_mut_ptr(), out.len());
            outcome(unsafe {
                raw::df_e_answer(telegram, len, head, head_len, status as u8, to, to_len)
            })
        }
        (Call::ReadRemedies, [telegram], []) => {
            let r = unsafe { raw::df_read_remedies(telegram.as_ptr(), telegram.len()) };
            let gives = [r.language.into(), r.ordered.into(), r.count.into()];
            Answer::with(r.refusal, 0, gives)
        }
        (Call::RemedyBlock, [telegram], &[block]) => {
            let (telegram, len) = (telegram.as_ptr(), telegram.len());
            let r = unsafe { raw::df_remedy_block(telegram, len, block as usize) };
            let gives = [r.found.into(), r.key.into(), r.at, r.size];
            Answer::with(r.refusal, 0, gives)
        }
        (Call::WriteRemedies, [head, carried, keys, texts, out], &[language, ordered]) => {
            let (head, carried) = (array(call, head), array(call, carried));
            let r = unsafe {
                raw::df_write_remedies(
                    head,
                    carried,
                    language as u16,
                    ordered as u8,
                    keys.as_ptr(),
                    keys.len(),
                    lent.lengths.as_ptr(),
                    lent.lengths.len(),
                    texts.as_ptr(),
                    texts.len(),
                    out.as_mut_ptr(),
                    out.len(),
                )
            };
            Answer::with(r.refusal, 0, [r.size])
        }
        _ => misfit(call),
    }
}
