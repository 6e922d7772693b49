//! Telegrams with remedy texts, and what a writer of them is handed, that are few enough to try them all.

use crate::case::{Call, Case};
use crate::exhaustive::large;
use crate::texts::{writing, Block, Telegram, LONGEST, OTHERS, REMEDIES};

pub fn each(try_one: &mut impl FnMut(Case)) {
    lengths_by_code(try_one);
    octets(try_one);
    ends(try_one);
    block_fields(try_one);
    keys(try_one);
    numbers(try_one);
    rooms(try_one);
    handed_blocks(try_one);
    counts(try_one);
    tables(try_one);
}

/// Read, and asked for each of its first blocks.
fn ask(try_one: &mut impl FnMut(Case), telegram: &[u8], blocks: u64) {
    let areas = vec![telegram.to_vec()];
    try_one(Case::new(Call::ReadRemedies, areas.clone(), vec![]));
    for block in 0..blocks {
        try_one(Case::new(Call::RemedyBlock, areas.clone(), vec![block]));
    }
}

/// Three texts, of which one is empty.
fn three() -> Telegram {
    let texts = [(3, &b"restart."[..]), (8, b""), (1, b"test")];
    Telegram::new(
        texts
            .map(|(key, text)| Block::new(key, text.to_vec()))
            .into(),
    )
}

/// As long as a telegram can be.
fn longest() -> Telegram {
    let keys = [8, 1, 7, 2, 6, 3, 5, 4];
    Telegram::new(keys.map(|key| Block::new(key, vec![key; 254])).into())
}

/// Every length around the limits with this code and those beside it, by every reader of E-telegrams.
fn lengths_by_code(try_one: &mut impl FnMut(Case)) {
    let ends = [9, 30, OTHERS, LONGEST].map(|end| end - 9..end + 10);
    for len in ends.into_iter().flatten().chain([1_500, 4_000]) {
        for code in [REMEDIES, 0x8008, 0x8A07, 0x8A09, 0x0A08, 0x9001, 0x9A01] {
            let mut telegram = vec![0xC7; len];
            if let Some(octets) = telegram.get_mut(6..8) {
                octets.copy_from_slice(&code.to_be_bytes());
            }
            ask(try_one, &telegram, 1);
            try_one(Case::new(Call::ERead, vec![telegram.clone()], vec![]));
            let areas = vec![telegram, vec![0x5A; 6], vec![0xEE; 10]];
            try_one(Case::new(Call::EAnswer, areas, vec![3]));
        }
    }
}

/// Every octet with every value.
fn octets(try_one: &mut impl FnMut(Case)) {
    let good = three().octets();
    for at in 0..good.len() {
        for octet in 0..=255 {
            let mut telegram = good.clone();
            telegram[at] = octet;
            ask(try_one, &telegram, 4);
        }
    }
}

/// Cut at every place, with up to some octets more, and with every number of blocks.
fn ends(try_one: &mut impl FnMut(Case)) {
    for good in [three(), longest()] {
        let octets = good.octets();
        for len in 0..octets.len() + 20 {
            let mut telegram = octets.clone();
            telegram.resize(len, 0);
            ask(try_one, &telegram, 1);
        }
        for count in 0..=255 {
            let mut telegram = octets.clone();
            telegram[23] = count;
            ask(try_one, &telegram, 1);
            telegram.push(0);
            ask(try_one, &telegram, 1);
        }
    }
}

/// A second block with lengths around all that they can be, so many octets of text, and keys that are good, are none, or are the first's.
fn block_fields(try_one: &mut impl FnMut(Case)) {
    let texts = (0..=4).chain([6, 253, 254, 255, 256, 510, 0xFFFE, 0xFFFF]);
    let texts: Vec<u16> = texts.collect();
    let lengths = (0..=12).chain([259, 260, 261, 262, 516, 0xFFFF]);
    for (length, &text_length) in lengths.flat_map(|l| texts.iter().map(move |t| (l, t))) {
        for octets in [0, 1, 2, 3, 4, 6, 252, 254, 255, 256] {
            for key in [0, 1, 2, 8, 9, 255] {
                let second = Block {
                    length,
                    text_length,
                    ..Block::new(key, vec![7; octets])
                };
                let telegram = Telegram::new(vec![Block::new(1, vec![7; 2]), second]);
                ask(try_one, &telegram.octets(), 0);
            }
        }
    }
}

/// Each block of the longest with every key: alone, with the end missing, with a shorter last text and an octet after it, and with odd lengths
/// of texts; and as much handed to the writer.
fn keys(try_one: &mut impl FnMut(Case)) {
    for (at, key) in (0..8).flat_map(|at| (0..=17).chain([128, 255]).map(move |key| (at, key))) {
        let mut telegram = longest();
        telegram.blocks[at].key = key;
        let octets = telegram.octets();
        ask(try_one, &octets, 8);
        ask(try_one, &octets[..octets.len() - 1], 1);
        telegram.blocks[7] = Block::new(telegram.blocks[7].key, vec![9; 200]);
        ask(try_one, &[&telegram.octets()[..], &[0]].concat(), 1);
        for odd in [0, at, 7] {
            telegram.blocks[odd].text_length ^= 1;
            ask(try_one, &telegram.octets(), 1);
        }
        try_one(writing(&telegram, vec![0xEE; LONGEST]));
    }
}

/// Blocks by every number, and every language and octet 23 at its edges.
fn numbers(try_one: &mut impl FnMut(Case)) {
    for telegram in [three().octets(), longest().octets()] {
        for block in (0..=300).chain(large()) {
            let areas = vec![telegram.clone()];
            try_one(Case::new(Call::RemedyBlock, areas, vec![block]));
        }
    }
    for (language, ordered) in [0, 1, 255, 256, 0x7FFF, 0xFFFF]
        .into_iter()
        .flat_map(|language: u16| (0..=255).map(move |ordered| (language, ordered)))
    {
        let mut telegram = three();
        telegram.front[20..22].copy_from_slice(&language.to_be_bytes());
        telegram.front[22] = ordered;
        ask(try_one, &telegram.octets(), 1);
        try_one(writing(&telegram, vec![0xEE; 61]));
    }
}

/// Outputs of every length.
fn rooms(try_one: &mut impl FnMut(Case)) {
    for telegram in [three(), longest(), Telegram::new(vec![])] {
        let size = telegram.octets().len();
        for len in (0..=size + 20).chain([3_000]) {
            try_one(writing(&telegram, vec![0xEE; len]));
        }
    }
}

/// Two and three blocks with every pair of keys, and texts of good lengths and others; with and without room.
fn handed_blocks(try_one: &mut impl FnMut(Case)) {
    let texts = [0, 1, 2, 3, 252, 253, 254, 255, 256, 257, 510];
    for (first, second) in (0..=10).flat_map(|first| (0..=10).map(move |second| (first, second))) {
        for (one, other) in texts
            .iter()
            .flat_map(|&one| texts.map(|other| (one, other)))
        {
            let mut blocks = vec![
                Block::new(first, vec![1; one]),
                Block::new(second, vec![2; other]),
            ];
            let size = 42 + one + other;
            try_one(writing(&Telegram::new(blocks.clone()), vec![0xEE; size]));
            blocks.push(Block::new(9, vec![]));
            try_one(writing(&Telegram::new(blocks), vec![0xEE; size + 6]));
        }
    }
    for text in (0..=600).chain([4_094, 0xFDFE, 0xFFFE, 0xFFFF]) {
        let telegram = Telegram::new(vec![Block::new(5, vec![7; text])]);
        for len in [35 + text, 36 + text, 37 + text] {
            try_one(writing(&telegram, vec![0xEE; len]));
        }
    }
}

/// So many blocks, with and without room, good but for their number, and not.
fn counts(try_one: &mut impl FnMut(Case)) {
    for count in (0..=20).chain([255, 256, 257, 264, 512]) {
        for (text, ordered) in [(0, 0), (0, 2), (2, 1), (3, 1), (254, 1)] {
            let block = |n: usize| Block::new(1 + (n % 8) as u8, vec![7; text]);
            let mut telegram = Telegram::new((0..count).map(block).collect());
            telegram.front[22] = ordered;
            let size = 30 + count * (6 + text);
            for len in [size - 1, size, size + 1] {
                try_one(writing(&telegram, vec![0xEE; len]));
            }
        }
    }
}

/// So many keys and lengths and octets of text, that fit each other or do not.
fn tables(try_one: &mut impl FnMut(Case)) {
    for (keys, lengths) in (0..=10).flat_map(|keys| (0..=10).map(move |lengths| (keys, lengths))) {
        for texts in 0..=22 {
            for len in [0, 29, 30, 30 + 6 * keys + texts, 200] {
                for length in [0, 2, 0xFFFF] {
                    let mut case = writing(&Telegram::new(vec![]), vec![0xEE; len]);
                    case.areas[2] = (1..=keys as u8).collect();
                    case.areas[3] = vec![7; texts];
                    case.lengths = vec![length; lengths];
                    try_one(case);
                }
            }
        }
    }
}

#[cfg(test)]
mod tests {
    use super::*;

    #[test]
    fn the_telegrams_are_good() {
        for (telegram, len) in [(three(), 60), (longest(), LONGEST)] {
            let octets = telegram.octets();
            assert_eq!(octets.len(), len);
            assert!(reference::read_remedies(&octets).is_ok());
        }
    }
}
