//! What a case of relaying shows: what becomes of each check, whose replacement goes out, and which of several faults is told.

use crate::case::{Answer, Call, Case};
use crate::list::List;
use crate::reached::{each, is_r_head, slot_of, Row};
use reference::{read_field, Form, HEAD, HEARD, STORE, VEHICLES};

/// What relaying can show, beside its types, forms and refusals.
pub fn wanted() -> Vec<Row> {
    let flags = [
        "kept, though others are not carried",
        "lost, live before it",
        "lost, live behind it",
        "behind the end",
        "expired",
        "expired, kept",
        "unknown replacement, live",
        "unknown replacement, not carried",
        "9, never heard",
        "9, a head of no R-telegram",
        "15, and another behind it",
        "15, an unknown replacement before it",
    ];
    [
        flags.map(|what| (what, 0)).to_vec(),
        each("one kept, mark", &[1, 2]),
        each("several kept, mark", &[1, 2]),
        each("one lost, reason", &[3, 5, 6, 7, 8]),
        each("several lost, reason", &[3, 5, 6, 7, 8]),
        // A mark is that of all signals under it, and of none without a check.
        each("lost beside a live one, reason", &[3, 5, 8]),
        each("no check, reason", &[0, 3, 5, 8]),
        each("of another type, mark", &[1, 2, 3]),
        each("of no signal, mark", &[1, 2, 3]),
        // Reason 8 is for widths up to 16.
        each("above 48 bits, reason", &[0, 1, 3, 5, 6, 7]),
        each("15, reason", &[3, 5, 6, 7, 8]),
        each("before 5, refusal", &[1, 2, 3, 4]),
        each("before 6, refusal", &[1, 2, 3, 4, 5]),
        each("before 9, refusal", &[1, 2, 3, 4]),
        each("before 16, refusal", &[1, 2, 3, 4, 5, 6, 9, 15]),
    ]
    .concat()
}

/// What one answer shows.
pub fn rows(case: &Case, answer: &Answer) -> Vec<Row> {
    if case.call != Call::Relay {
        return vec![];
    }
    match (answer.refusal, slot_in(case), case.list_at(0)) {
        (0, Some(slot), Some(list)) => {
            let read = read(case, &list, slot);
            [check_rows(&list, slot, &read), signal_rows(&list, &read)].concat()
        }
        (15, Some(slot), Some(list)) => {
            let read = read(case, &list, slot);
            let at = fault_rows(&list, &read, answer.carried as usize);
            [at, hidden_rows(case, 15)].concat()
        }
        (9, Some(slot), _) => {
            let why = match slot[HEARD] {
                1 | 2 => "9, a head of no R-telegram",
                _ => "9, never heard",
            };
            [vec![(why, 0)], hidden_rows(case, 9)].concat()
        }
        (refusal, ..) => hidden_rows(case, refusal.into()),
    }
}

/// The slot that is relayed, if the store and the vehicle are any.
fn slot_in(case: &Case) -> Option<&[u8]> {
    let (store, vehicle) = (&case.areas[1], case.numbers[2]);
    let there = store.len() == STORE && (1..=VEHICLES as u64).contains(&vehicle);
    there.then(|| slot_of(store, vehicle))
}

/// The type of what was heard.
fn kind_of(slot: &[u8]) -> Option<u64> {
    let heard = matches!(slot[HEARD], 1 | 2) && is_r_head(slot[HEAD]);
    heard.then(|| u64::from(slot[HEAD] & 15))
}

/// The reason of each signal, under a good list; none where the type does not carry it.
fn read(case: &Case, list: &List, slot: &[u8]) -> Vec<Option<u64>> {
    let (octets, store, form) = (&case.areas[0], &case.areas[1], Form::of(list.form));
    let (now, vehicle) = (case.numbers[1] as u32, case.numbers[2]);
    let reason = |number| {
        let read = reference::read(octets, form, store, now, vehicle, number);
        read.map_or(u64::MAX, |read| read.reason.into())
    };
    let kind = kind_of(slot).unwrap_or(0);
    (0..)
        .zip(&list.signals)
        .map(|(number, s)| s.carried_by(kind).then(|| reason(number)))
        .collect()
}

/// Each check: the signals under it that the type carries, and the mark that was heard.
fn check_rows(list: &List, slot: &[u8], read: &[Option<u64>]) -> Vec<Row> {
    let expired = slot[HEARD] == 2;
    let mut rows = vec![("type", kind_of(slot).unwrap_or(0))];
    if expired {
        rows.push(("expired", 0));
    }
    for (number, &place) in (1..).zip(&list.checks) {
        if kind_of(slot) == Some(3) && place >= 320 {
            rows.push(("behind the end", 0));
            continue;
        }
        let under = list.signals.iter().zip(read);
        let under = under.filter(|(s, _)| s.check == number);
        let others = under.clone().any(|(_, reason)| reason.is_none());
        let reasons: Vec<u64> = under.filter_map(|(_, &reason)| reason).collect();
        let mark = read_field(&slot[HEAD..], place as usize, 2);
        rows.extend(fate(&reasons, others, mark));
        if expired && !reasons.is_empty() && reasons.iter().all(is_live) {
            rows.push(("expired, kept", 0));
        }
    }
    rows
}

fn is_live(reason: &u64) -> bool {
    *reason <= 1
}

/// What becomes of a check, by the reasons of the signals under it, in their order.
fn fate(reasons: &[u64], others: bool, mark: u64) -> Vec<Row> {
    let first_lost = reasons.iter().position(|reason| !is_live(reason));
    match (reasons.len(), first_lost) {
        (0, _) if others => vec![("of another type, mark", mark)],
        (0, _) => vec![("of no signal, mark", mark)],
        (len, None) => {
            let kept = match len {
                1 => ("one kept, mark", mark),
                _ => ("several kept, mark", mark),
            };
            let beside = others.then_some(("kept, though others are not carried", 0));
            [kept].into_iter().chain(beside).collect()
        }
        (1, Some(_)) => vec![("one lost, reason", reasons[0])],
        (_, Some(first)) => {
            let lost = reasons.iter().filter(|reason| !is_live(reason));
            let mut rows: Vec<Row> = lost.clone().map(|&n| ("several lost, reason", n)).collect();
            if reasons.iter().any(is_live) {
                rows.extend(lost.map(|&n| ("lost beside a live one, reason", n)));
            }
            if reasons[..first].iter().any(is_live) {
                rows.push(("lost, live before it", 0));
            }
            if reasons[first..].iter().any(is_live) {
                rows.push(("lost, live behind it", 0));
            }
            rows
        }
    }
}

/// Whether the replacement of a signal is not known to it.
fn is_unknown(list: &List, number: usize) -> bool {
    !list.knows(number, list.signals[number].replacement)
}

/// Wide fields, signals without a check, and replacements that would be refused and do not go out.
fn signal_rows(list: &List, read: &[Option<u64>]) -> Vec<Row> {
    let mut rows = vec![];
    for (number, (s, &reason)) in list.signals.iter().zip(read).enumerate() {
        if is_unknown(list, number) {
            rows.push(match reason {
                Some(_) => ("unknown replacement, live", 0),
                None => ("unknown replacement, not carried", 0),
            });
        }
        if let Some(reason) = reason {
            if s.width > 48 {
                rows.push(("above 48 bits, reason", reason));
            }
            if s.check == 0 {
                rows.push(("no check, reason", reason));
            }
        }
    }
    rows
}

/// The signal at fault, and what would be refused before and behind it.
fn fault_rows(list: &List, read: &[Option<u64>], at: usize) -> Vec<Row> {
    let goes_out = |number: usize| read[number].is_some_and(|reason| !is_live(&reason));
    let reason = read.get(at).copied().flatten();
    let mut rows = vec![("15, reason", reason.unwrap_or(u64::MAX))];
    if (at + 1..read.len()).any(|number| goes_out(number) && is_unknown(list, number)) {
        rows.push(("15, and another behind it", 0));
    }
    if (0..at).any(|number| is_unknown(list, number)) {
        rows.push(("15, an unknown replacement before it", 0));
    }
    rows
}

/// The faults that are there too and are not told, since the lower number is.
fn hidden_rows(case: &Case, refusal: u64) -> Vec<Row> {
    let nobody = !(1..=VEHICLES as u64).contains(&case.numbers[2]);
    let kind = slot_in(case).map(kind_of);
    let len = case.areas[2].len();
    let fits = match kind.flatten() {
        Some(3) => len == 40,
        Some(_) => len == 128,
        None => len == 40 || len == 128,
    };
    let faults = [
        (5, "before 5, refusal", case.areas[1].len() != STORE),
        (6, "before 6, refusal", nobody),
        (9, "before 9, refusal", kind == Some(None)),
        (16, "before 16, refusal", !fits),
    ];
    let hidden = faults
        .into_iter()
        .filter(|&(number, _, there)| there && refusal < number);
    hidden.map(|(_, what, _)| (what, refusal)).collect()
}
