//! C-11, remedy texts there and back: what is written reads back, and what was read and is written again is the same telegram, its reserve at 0.

use std::collections::BTreeMap;
use std::fmt;

use crate::case::{Call, Case};
use crate::memory::on_heap;
use crate::random::Random;
use crate::sides::{by_header, by_reference, by_wrappers, Side};
use crate::texts::{self, writing, Block, Telegram, BEFORE, FRONT, LONGEST};

/// What the telegrams of a seed must meet.
const NAMES: [&str; 9] = [
    "one block",
    "eight blocks",
    "the longest",
    "an empty text",
    "a text of 254 octets",
    "no text but empty ones",
    "no room left",
    "room left",
    "a reserve of all ones",
];

pub struct Met {
    names: BTreeMap<&'static str, u64>,
    pub telegrams: u64,
}

/// What a call gives; none of these may be refused.
fn given(side: Side, case: &Case) -> Result<([u64; 8], Vec<Vec<u8>>), String> {
    let after = on_heap(side, case);
    match after.answer.refusal {
        0 => Ok((after.answer.gives, after.areas)),
        _ => Err(format!("{}, {}", case.call.parameters().name, after.answer)),
    }
}

/// What is written, into an output of this octet with room for so many octets more, which must stay.
fn written(side: Side, telegram: &Telegram, octet: u8, room: usize) -> Result<Vec<u8>, String> {
    let size = telegram.octets().len();
    let case = writing(telegram, vec![octet; size + room]);
    let ([gives, ..], mut areas) = given(side, &case)?;
    let mut out = areas.pop().unwrap_or_default();
    if gives != size as u64 || out[size..].iter().any(|&other| other != octet) {
        return Err(format!("{gives} octets written, not {size}, or more"));
    }
    out.truncate(size);
    Ok(out)
}

/// All that a telegram says, as it was read; its reserve is 0.
fn read(side: Side, octets: &[u8]) -> Result<Telegram, String> {
    let ask = |call, numbers| given(side, &Case::new(call, vec![octets.to_vec()], numbers));
    let ([language, ordered, count, ..], _) = ask(Call::ReadRemedies, vec![])?;
    let block = |number| {
        let ([found, key, at, size, ..], _) = ask(Call::RemedyBlock, vec![number])?;
        let text = &octets[at as usize..(at + size) as usize];
        match found {
            1 => Ok(Block::new(key as u8, text.to_vec())),
            _ => Err(format!("no block {number} of {count}")),
        }
    };
    let blocks: Result<Vec<Block>, String> = (0..count).map(block).collect();
    let mut telegram = Telegram::new(blocks?);
    let front = &mut telegram.front;
    front[..6].copy_from_slice(&octets[..6]);
    front[8..20].copy_from_slice(&octets[8..20]);
    front[20..22].copy_from_slice(&(language as u16).to_be_bytes());
    front[22] = ordered as u8;
    front[24..].fill(0);
    Ok(telegram)
}

/// The telegram with its reserve at 0.
fn without_reserve(telegram: &Telegram) -> Telegram {
    let mut plain = telegram.clone();
    plain.front[24..].fill(0);
    plain.blocks.iter_mut().for_each(|block| block.reserve = 0);
    plain
}

/// There and back: a telegram that is written reads back, and with a reserve that is not 0 it is read alike and written as before.
fn returned(side: Side, telegram: &Telegram, octet: u8, room: usize) -> Result<(), String> {
    let plain = without_reserve(telegram);
    let out = written(side, telegram, octet, room)?;
    if out != plain.octets() {
        return Err("something else is written".to_string());
    }
    for octets in [&out, &telegram.octets()] {
        let back = read(side, octets)?;
        if back != plain {
            return Err("something else is read".to_string());
        }
        if written(side, &back, !octet, 0)? != out {
            return Err("something else is written again".to_string());
        }
    }
    Ok(())
}

impl Met {
    fn count(&mut self, telegram: &Telegram, room: usize) {
        let lens: Vec<usize> = telegram.blocks.iter().map(|b| b.text.len()).collect();
        let size = FRONT + BEFORE * lens.len() + lens.iter().sum::<usize>();
        let ones = telegram.blocks.iter().any(|block| block.reserve == 0xFF);
        let met = [
            lens.len() == 1,
            lens.len() == 8,
            size == LONGEST,
            lens.contains(&0),
            lens.contains(&254),
            lens.iter().all(|&len| len == 0),
            room == 0,
            room > 0,
            ones,
        ];
        self.telegrams += 1;
        for (name, met) in NAMES.into_iter().zip(met) {
            *self.names.entry(name).or_default() += u64::from(met);
        }
    }

    pub fn faults(&self) -> Vec<String> {
        let missing = self.names.iter().filter(|(_, &count)| count == 0);
        missing
            .map(|(name, _)| format!("UNREACHED: there and back, {name}"))
            .collect()
    }
}

impl fmt::Display for Met {
    fn fmt(&self, f: &mut fmt::Formatter) -> fmt::Result {
        let said = NAMES.map(|name| format!("{name}: {}", self.names[name]));
        writeln!(f, "{:15}{}", "there and back", said.join(", "))
    }
}

/// So many telegrams of a seed, by both libraries; what they met, or where the first went wrong.
pub fn all(telegrams: u64, seed: u64) -> Result<Met, String> {
    let mut met = Met {
        names: NAMES.map(|name| (name, 0)).into(),
        telegrams: 0,
    };
    for number in 0..telegrams {
        // Numbers that no case of the seed has, and no other run.
        let r = Random::of_case(seed, u64::MAX / 8 - number);
        let (telegram, octet) = (texts::telegram(&r), r.octet());
        let room = r.of(&[0, 1, 40]);
        for side in [by_reference, by_wrappers, by_header] {
            returned(side, &telegram, octet, room)
                .map_err(|why| format!("telegram {number} of seed {seed}: {why}"))?;
        }
        met.count(&telegram, room);
    }
    Ok(met)
}
