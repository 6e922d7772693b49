//! What a case of remedy texts shows: which rule is broken, in which block, what else is at fault and is not told, and how near to the ends of
//! its rules a telegram comes that is read or written. And of E-telegrams, what their code makes of their length.

use crate::case::{Answer, Call, Case};
use crate::reached::{each, Row};
use crate::texts::{BEFORE, FRONT, LONGEST, OTHERS, REMEDIES};

/// A fault of a block: its number, and what is said of it.
type Fault = (u64, &'static str);

const MISSING: Fault = (28, "28, no first 6 octets");
const PAST: Fault = (28, "28, past by its length");
const KEY: Fault = (29, "29, key");
const ODD: Fault = (29, "29, odd text");
const LONG: Fault = (29, "29, text above 254 octets");
const APART: Fault = (29, "29, lengths disagree");
const TWICE: Fault = (30, "30, key twice");

const COUNTS: [u64; 8] = [1, 2, 3, 4, 5, 6, 7, 8];

/// What these calls can show, beside their refusals.
pub fn wanted(call: Call) -> Vec<Row> {
    match call {
        Call::ReadRemedies => [wanted_accepted(), wanted_front(), wanted_blocks()].concat(),
        Call::RemedyBlock => [
            each("found, block", &[0, 1, 2, 3, 4, 5, 6, 7]),
            each("text octets", &[0, 2, 252, 254]),
            flags(&["no more, behind the last", "no more, far off"]),
            flags(&["an empty text at the end", "a text to the end"]),
        ]
        .concat(),
        Call::WriteRemedies => [wanted_written(), wanted_tables(), wanted_handed()].concat(),
        Call::ERead => [
            each("8A08, octets", &[9, 1_024, 1_025, 2_110]),
            each("21, 8A08, octets", &[2_111]),
            each("21, another code, octets", &[1_025, 2_110]),
        ]
        .concat(),
        Call::EAnswer => [
            flags(&[
                "23, 8A08 above 1,024 octets",
                "21, another code up to 2,110",
            ]),
            each("21, 8A08, octets", &[2_111]),
        ]
        .concat(),
        _ => vec![],
    }
}

fn flags(names: &[&'static str]) -> Vec<Row> {
    names.iter().map(|&what| (what, 0)).collect()
}

fn wanted_accepted() -> Vec<Row> {
    [
        each("blocks", &COUNTS),
        each("octet 23 is", &[0, 1]),
        each("octets", &[36, 2_110]),
        each("text octets", &[0, 2, 252, 254]),
        flags(&["above 1,024 octets", "reserve set", "keys not in order"]),
    ]
    .concat()
}

fn wanted_front() -> Vec<Row> {
    [
        each("21, octets", &[29, 2_111]),
        flags(&[
            "21, under 30 octets",
            "21, another code above 1,024",
            "21, 29 octets of another code",
            "29, another code",
            "29, octet 23",
            "29, no block",
            "29, above 8 blocks",
            "29, octets 7-24, and octets after",
        ]),
        each("29, octets 7-24, and a block's", &[28, 29, 30]),
    ]
    .concat()
}

fn wanted_blocks() -> Vec<Row> {
    [
        flags(&[MISSING.1, PAST.1, "28, octets after the last"]),
        each("28, block", &COUNTS),
        each("28, in the same block", &[29, 30]),
        // Behind a block that runs past the end there is no other.
        each("29, and of a later block", &[28, 29, 30]),
        each("30, and of a later block", &[28, 29, 30]),
        flags(&["29, and octets after", "30, and octets after"]),
        flags(&[LONG.1, APART.1, "29, its text past the end"]),
        wanted_each(),
    ]
    .concat()
}

/// Of blocks read and of blocks handed in.
fn wanted_each() -> Vec<Row> {
    [
        flags(&[KEY.1, ODD.1, TWICE.1]),
        each("29, block", &COUNTS),
        each("30, block", &COUNTS[1..]),
        each("29, in the same block", &[30]),
    ]
    .concat()
}

fn wanted_written() -> Vec<Row> {
    [
        each("blocks", &COUNTS),
        each("octet 23 is", &[0, 1]),
        each("octets", &[36, 2_110]),
        each("text octets", &[0, 2, 252, 254]),
        flags(&["no room left", "room left", "keys not in order"]),
    ]
    .concat()
}

fn wanted_tables() -> Vec<Row> {
    flags(&[
        "29, more keys than lengths",
        "29, fewer keys than lengths",
        "29, lengths above the texts",
        "29, lengths under the texts",
        "29, tables, and no room",
        "29, tables, and octet 23",
    ])
}

fn wanted_handed() -> Vec<Row> {
    [
        flags(&[
            "25, short by 1",
            "25, under 30 octets",
            "25, and octet 23",
            "25, and no block",
            "25, and above 8 blocks",
            "29, octet 23",
            "29, no block",
            "29, above 8 blocks",
        ]),
        each("25, and a block's", &[29, 30]),
        each("29, octet 23, and a block's", &[29, 30]),
        each("29, and of a later block", &[29, 30]),
        each("30, and of a later block", &[29, 30]),
        flags(&[LONG.1]),
        wanted_each(),
    ]
    .concat()
}

/// What one answer shows.
pub fn rows(case: &Case, answer: &Answer) -> Vec<Row> {
    match (case.call, answer.refusal) {
        (Call::ReadRemedies, 0) => accepted_rows(&case.areas[0]),
        (Call::ReadRemedies, 21) => length_rows(&case.areas[0]),
        (Call::ReadRemedies, _) => refused_rows(&case.areas[0]),
        (Call::RemedyBlock, 0) => found_rows(case, answer),
        (Call::WriteRemedies, 0) => written_rows(case, answer.gives[0]),
        (Call::WriteRemedies, refusal) => unwritten_rows(case, refusal.into()),
        (Call::ERead | Call::EAnswer, _) => e_rows(case, answer.refusal),
        _ => vec![],
    }
}

/// Those that hold.
fn met(rows: &[(&'static str, bool)]) -> Vec<Row> {
    let rows = rows.iter().filter(|(_, met)| *met);
    rows.map(|&(what, _)| (what, 0)).collect()
}

fn number(t: &[u8], at: usize) -> usize {
    usize::from(t[at]) << 8 | usize::from(t[at + 1])
}

fn is_ours(t: &[u8]) -> bool {
    t.len() > 7 && number(t, 6) == REMEDIES.into()
}

/// The blocks of a telegram by where they start, as far as their lengths and its octets go.
fn starts(t: &[u8]) -> Vec<usize> {
    let mut starts = vec![];
    let mut at = FRONT;
    while starts.len() < t[23].into() && at + BEFORE <= t.len() {
        starts.push(at);
        at += number(t, at);
    }
    starts
}

fn accepted_rows(t: &[u8]) -> Vec<Row> {
    let starts = starts(t);
    let texts = starts.iter().map(|&at| number(t, at + 4) as u64);
    let keys: Vec<u8> = starts.iter().map(|&at| t[at + 2]).collect();
    let in_front = t[24..FRONT].iter().any(|&octet| octet != 0);
    let in_block = starts.iter().any(|&at| t[at + 3] != 0);
    let flags = met(&[
        ("above 1,024 octets", t.len() > OTHERS),
        ("reserve set", in_front && in_block),
        ("keys not in order", !keys.is_sorted()),
    ]);
    [
        vec![
            ("blocks", t[23].into()),
            ("octet 23 is", t[22].into()),
            ("octets", t.len() as u64),
        ],
        texts.map(|octets| ("text octets", octets)).collect(),
        flags,
    ]
    .concat()
}

/// 21, by what.
fn length_rows(t: &[u8]) -> Vec<Row> {
    let len = t.len();
    let edge = len == 29 || len == LONGEST + 1 && is_ours(t);
    let flags = met(&[
        ("21, under 30 octets", len < FRONT),
        ("21, another code above 1,024", len > OTHERS && !is_ours(t)),
        ("21, 29 octets of another code", len == 29 && !is_ours(t)),
    ]);
    let edge = edge.then_some(("21, octets", len as u64));
    edge.into_iter().chain(flags).collect()
}

/// 28 to 30, by octets 7-24, by a block, or by what is behind the last.
fn refused_rows(t: &[u8]) -> Vec<Row> {
    let (blocks, after) = faults(t);
    let front = met(&[
        ("29, another code", !is_ours(t)),
        ("29, octet 23", t[22] > 1),
        ("29, no block", t[23] == 0),
        ("29, above 8 blocks", t[23] > 8),
    ]);
    if front.is_empty() {
        let told = told_rows(&blocks, after);
        return told.into_iter().chain(text_past(t, &blocks)).collect();
    }
    let hidden = match first_of(&blocks) {
        Some(number) => vec![("29, octets 7-24, and a block's", number)],
        None if after => vec![("29, octets 7-24, and octets after", 0)],
        None => vec![],
    };
    [front, hidden].concat()
}

/// The number of the first bad block.
fn first_of(blocks: &[Vec<Fault>]) -> Option<u64> {
    let first = blocks.iter().find_map(|faults| faults.first());
    first.map(|fault| fault.0)
}

/// Whether the first bad block ends in the telegram where its text, by its own length, does not.
fn text_past(t: &[u8], blocks: &[Vec<Fault>]) -> Option<Row> {
    let bad = blocks.iter().position(|faults| !faults.is_empty())?;
    let &at = starts(t).get(bad)?;
    let ends = at + number(t, at) <= t.len();
    let past = ends && at + BEFORE + number(t, at + 4) > t.len();
    past.then_some(("29, its text past the end", 0))
}

/// What is wrong with each block, the lowest number first, and whether there are octets after the last.
fn faults(t: &[u8]) -> (Vec<Vec<Fault>>, bool) {
    let starts = starts(t);
    let keys: Vec<u8> = starts.iter().map(|&at| t[at + 2]).collect();
    let mut blocks: Vec<Vec<Fault>> = vec![];
    for (block, &at) in starts.iter().enumerate() {
        let (length, text) = (number(t, at), number(t, at + 4));
        let past = at + length > t.len();
        let more = fault(&keys, block, text, length != BEFORE + text);
        blocks.push(past.then_some(PAST).into_iter().chain(more).collect());
    }
    let end = starts.last().map_or(FRONT, |&at| at + number(t, at));
    if starts.len() < t[23].into() && end <= t.len() {
        blocks.push(vec![MISSING]);
    }
    (blocks, end < t.len() && starts.len() == t[23].into())
}

/// What is wrong with a block, by the keys of all, the octets of its text, and whether its lengths disagree: all but that it runs past the end.
fn fault(keys: &[u8], at: usize, text: usize, apart: bool) -> Vec<Fault> {
    let faults = [
        (KEY, !(1..=8).contains(&keys[at])),
        (ODD, text % 2 == 1),
        (LONG, text > 254),
        (APART, apart),
        (TWICE, keys[..at].contains(&keys[at])),
    ];
    let faults = faults.into_iter().filter(|(_, met)| *met);
    faults.map(|(fault, _)| fault).collect()
}

/// What the first bad block is told for, and what else there is.
fn told_rows(blocks: &[Vec<Fault>], after: bool) -> Vec<Row> {
    let Some(at) = blocks.iter().position(|faults| !faults.is_empty()) else {
        return vec![("28, octets after the last", 0)];
    };
    let (told, name) = blocks[at][0];
    let [block, same, later, behind] = match told {
        28 => ["28, block", "28, in the same block", "", ""],
        29 => [
            "29, block",
            "29, in the same block",
            "29, and of a later block",
            "29, and octets after",
        ],
        _ => [
            "30, block",
            "",
            "30, and of a later block",
            "30, and octets after",
        ],
    };
    let others = blocks[at].iter().map(|fault| fault.0);
    let others = others.filter(|&number| number > told);
    let behind_it = blocks[at + 1..].iter().filter_map(|faults| faults.first());
    let rows = [(name, 0), (block, at as u64 + 1)];
    let rows = rows.into_iter().chain(others.map(|number| (same, number)));
    let rows = rows.chain(behind_it.map(|fault| (later, fault.0)));
    rows.chain(after.then_some((behind, 0)))
        .filter(|(what, _)| !what.is_empty())
        .collect()
}

fn found_rows(case: &Case, answer: &Answer) -> Vec<Row> {
    let (t, block) = (&case.areas[0], case.numbers[0]);
    let [found, _, at, size, ..] = answer.gives;
    if found == 0 {
        return met(&[
            ("no more, behind the last", block == u64::from(t[23])),
            ("no more, far off", block > 255),
        ]);
    }
    let ends = at + size == t.len() as u64;
    let flags = met(&[
        ("an empty text at the end", ends && size == 0),
        ("a text to the end", ends && size > 0),
    ]);
    [vec![("found, block", block), ("text octets", size)], flags].concat()
}

fn written_rows(case: &Case, size: u64) -> Vec<Row> {
    let (keys, room) = (&case.areas[2], case.areas[4].len() as u64);
    let texts = case.lengths.iter().map(|&len| ("text octets", len.into()));
    let flags = met(&[
        ("no room left", room == size),
        ("room left", room > size),
        ("keys not in order", !keys.is_sorted()),
    ]);
    let rows = [
        ("blocks", keys.len() as u64),
        ("octet 23 is", case.numbers[1]),
        ("octets", size),
    ];
    rows.into_iter().chain(texts).chain(flags).collect()
}

fn unwritten_rows(case: &Case, refusal: u64) -> Vec<Row> {
    let [keys, texts, out] = [2, 3, 4].map(|area| case.areas[area].len());
    let (lengths, ordered) = (&case.lengths, case.numbers[1] > 1);
    let sum: usize = lengths.iter().map(|&len| usize::from(len)).sum();
    if keys != lengths.len() || sum != texts {
        return met(&[
            ("29, more keys than lengths", keys > lengths.len()),
            ("29, fewer keys than lengths", keys < lengths.len()),
            ("29, lengths above the texts", sum > texts),
            ("29, lengths under the texts", sum < texts),
            ("29, tables, and no room", out < FRONT),
            ("29, tables, and octet 23", ordered),
        ]);
    }
    let few = (1..=8).contains(&keys);
    let of = |(at, &len): (usize, &u16)| fault(&case.areas[2], at, len.into(), false);
    let blocks: Vec<Vec<Fault>> = lengths.iter().enumerate().map(of).collect();
    match (refusal, few && !ordered) {
        (25, _) => no_room_rows(case, first_of(&blocks).filter(|_| few)),
        (_, true) => told_rows(&blocks, false),
        (_, false) => {
            let hidden = first_of(&blocks).filter(|_| few);
            let hidden = hidden.map(|number| ("29, octet 23, and a block's", number));
            let flags = met(&[
                ("29, octet 23", ordered),
                ("29, no block", keys == 0),
                ("29, above 8 blocks", keys > 8),
            ]);
            flags.into_iter().chain(hidden).collect()
        }
    }
}

/// 25, and what else there is: the number of a bad block among others.
fn no_room_rows(case: &Case, block: Option<u64>) -> Vec<Row> {
    let [keys, texts, out] = [2, 3, 4].map(|area| case.areas[area].len());
    let needed = FRONT + BEFORE * keys + texts;
    let flags = met(&[
        ("25, short by 1", out + 1 == needed),
        ("25, under 30 octets", out < FRONT),
        ("25, and octet 23", case.numbers[1] > 1),
        ("25, and no block", keys == 0),
        ("25, and above 8 blocks", keys > 8),
    ]);
    let hidden = block.map(|number| ("25, and a block's", number));
    flags.into_iter().chain(hidden).collect()
}

/// What the code makes of the length.
fn e_rows(case: &Case, refusal: u32) -> Vec<Row> {
    let (t, is_read) = (&case.areas[0], case.call == Call::ERead);
    let len = t.len() as u64;
    match (refusal, is_ours(t)) {
        (0, true) => vec![("8A08, octets", len)],
        (21, true) if len == LONGEST as u64 + 1 => vec![("21, 8A08, octets", len)],
        (21, false) if is_read && [1_025, 2_110].contains(&len) => {
            vec![("21, another code, octets", len)]
        }
        (21, false) if !is_read && len > 1_024 && len <= 2_110 => {
            vec![("21, another code up to 2,110", 0)]
        }
        (23, true) if len > 1_024 => vec![("23, 8A08 above 1,024 octets", 0)],
        _ => vec![],
    }
}
