//! Telegrams with remedy texts, good ones and damaged ones, and what a writer of them is handed, right and wrong.

use crate::case::{Call, Case};
use crate::random::Random;

/// The code of a report with remedy texts.
pub const REMEDIES: u16 = 0x8A08;
/// The longest telegram of this code, and of any other.
pub const LONGEST: usize = 2_110;
pub const OTHERS: usize = 1_024;
/// The octets before the blocks, and those of a block before its text.
pub const FRONT: usize = 30;
pub const BEFORE: usize = 6;

/// A block as it stands in a telegram; its lengths need not be those of its text.
#[derive(Debug, Clone, PartialEq)]
pub struct Block {
    pub length: u16,
    pub key: u8,
    pub reserve: u8,
    pub text_length: u16,
    pub text: Vec<u8>,
}

impl Block {
    pub fn new(key: u8, text: Vec<u8>) -> Self {
        let mut block = Block {
            length: 0,
            key,
            reserve: 0,
            text_length: 0,
            text,
        };
        block.measure();
        block
    }

    /// Both lengths are those of the text.
    fn measure(&mut self) {
        self.text_length = self.text.len() as u16;
        self.length = self.text_length.wrapping_add(BEFORE as u16);
    }

    fn octets(&self) -> Vec<u8> {
        let [l0, l1] = self.length.to_be_bytes();
        let [t0, t1] = self.text_length.to_be_bytes();
        [&[l0, l1, self.key, self.reserve, t0, t1], &self.text[..]].concat()
    }
}

#[derive(Debug, Clone, PartialEq)]
pub struct Telegram {
    pub front: [u8; FRONT],
    pub blocks: Vec<Block>,
}

impl Telegram {
    /// Language 0407, octet 23 is 1, and what is not read is C3.
    pub fn new(blocks: Vec<Block>) -> Self {
        let mut front = [0xC3; FRONT];
        front[6..8].copy_from_slice(&REMEDIES.to_be_bytes());
        front[20..24].copy_from_slice(&[4, 7, 1, blocks.len() as u8]);
        Telegram { front, blocks }
    }

    pub fn octets(&self) -> Vec<u8> {
        let blocks = self.blocks.iter().map(Block::octets);
        [self.front.to_vec(), blocks.collect::<Vec<_>>().concat()].concat()
    }
}

/// A good telegram.
pub fn telegram(r: &Random) -> Telegram {
    let mut telegram = Telegram::new(blocks(r));
    for at in (0..6).chain(8..22).chain(24..FRONT) {
        telegram.front[at] = r.octet();
    }
    telegram.front[22] = r.below(2) as u8;
    telegram
}

/// Texts of even lengths under keys in any order, none of them twice; at times as long as they can be.
pub fn blocks(r: &Random) -> Vec<Block> {
    let mut keys = [1, 2, 3, 4, 5, 6, 7, 8];
    (0..8).for_each(|at| keys.swap(at, r.index(8)));
    let (count, most): (u64, u64) = match r.below(8) {
        0 => (8, 127),
        _ => (r.of(&[1, 2, 3, 8, r.within(1, 8)]), r.of(&[0, 1, 4, 127])),
    };
    let full = r.one_in(4);
    let half = || match full {
        true => most,
        false => r.of(&[0, most, most.saturating_sub(1), r.below(most + 1)]),
    };
    let block = |&key| Block {
        reserve: r.octet(),
        ..Block::new(key, r.octets(2 * half() as usize))
    };
    keys[..count as usize].iter().map(block).collect()
}

/// A good telegram, or what became of it.
pub fn any_telegram(r: &Random) -> Vec<u8> {
    let mut telegram = telegram(r);
    // How many faults of blocks, and whether there are some of octets 7-24 and of the whole.
    let (blocks, front, whole) = match r.below(13) {
        0..=3 => (0, false, false),
        4 | 5 => (1, false, false),
        6 | 7 => (2, false, false),
        8 => (1, false, true),
        9 | 10 => (0, true, true),
        11 => (1, true, false),
        _ => (0, false, true),
    };
    (0..blocks).for_each(|_| damage_block(r, &mut telegram));
    if front {
        damage_front(r, &mut telegram.front);
    }
    match whole {
        true => damage_octets(r, telegram.octets()),
        false => telegram.octets(),
    }
}

/// The code, octet 23 or the number of blocks is another.
fn damage_front(r: &Random, front: &mut [u8; FRONT]) {
    let near = |octet: u8| r.of(&[octet.wrapping_add(1), octet.wrapping_sub(1), r.octet()]);
    match r.below(5) {
        0 => front[6..8].copy_from_slice(&r.of(&[0x8008u16, 0x8A07, 0x8A09, 0x0A08]).to_be_bytes()),
        1 => front[r.of(&[6, 7])] = r.octet(),
        2 => front[22] = r.of(&[2, 3, 128, 255, r.octet()]),
        3 => front[23] = near(front[23]),
        _ => front[23] = r.of(&[0, 0, 9, 9, 10, 255]),
    }
}

/// A block has a number that is another, or a text that is odd or too long.
fn damage_block(r: &Random, telegram: &mut Telegram) {
    let count = telegram.blocks.len();
    let at = r.index(count);
    let other = telegram.blocks[r.index(count)].key;
    let block = &mut telegram.blocks[at];
    let (length, text_length) = (u64::from(block.length), u64::from(block.text_length));
    match r.below(12) {
        0 | 1 => block.key = r.of(&[0, 9, 10, 128, 255, r.octet()]),
        2..=4 => block.key = other,
        5 => block.length = r.near(length) as u16,
        6 => {
            let far = [0, 5, 6, 8, length + 6, length + 256, 0xFFFF];
            block.length = r.of(&far) as u16;
        }
        7 => block.text_length = r.near(text_length) as u16,
        8 => block.text_length = r.of(&[0, 2, 254, 255, 256, text_length as u16 | 0x100]),
        9 => {
            let by = r.of(&[2, 0xFFFE, 256]);
            block.length = block.length.wrapping_add(by);
            block.text_length = block.text_length.wrapping_add(by);
        }
        10 => {
            block.text.push(r.octet());
            block.measure();
        }
        _ => {
            let len = r.of(&[253, 255, 256, 258, 300, 510, 600]);
            block.text = r.octets(len);
            block.measure();
        }
    }
}

/// Cut, longer, or an octet is another.
fn damage_octets(r: &Random, mut octets: Vec<u8>) -> Vec<u8> {
    let at = r.index(octets.len());
    match r.below(8) {
        0 => octets[at] = r.octet(),
        1 => octets[at] ^= 1 << r.below(8),
        2 => octets.truncate(at),
        3 => octets.truncate(r.of(&[0, 1, 8, 9, 29, 29, 29, 30, 31, 35, 36])),
        4 => octets.truncate(octets.len() - r.of(&[1, 1, 2, 3, 6])),
        5 | 6 => {
            let more = r.of(&[1, 1, 2, 5, 6, 300]);
            octets.extend(r.octets(more));
        }
        _ => {
            let len = r.of(&[OTHERS, OTHERS + 1, LONGEST, LONGEST + 1, LONGEST + 1, 3_000]);
            octets.resize(len, r.octet());
        }
    }
    octets
}

/// The keys and texts of a telegram, and what stands before them, handed to the writer with this output; what lengths it says is no matter.
pub fn writing(telegram: &Telegram, out: Vec<u8>) -> Case {
    let front = &telegram.front;
    let blocks = &telegram.blocks;
    let areas = vec![
        front[..6].to_vec(),
        front[8..20].to_vec(),
        blocks.iter().map(|block| block.key).collect(),
        blocks.iter().flat_map(|block| block.text.clone()).collect(),
        out,
    ];
    let language = u16::from_be_bytes([front[20], front[21]]);
    let numbers = vec![language.into(), front[22].into()];
    Case {
        lengths: blocks.iter().map(|block| block.text.len() as u16).collect(),
        ..Case::new(Call::WriteRemedies, areas, numbers)
    }
}

/// Mostly what can be written; some of it damaged, at times in two places.
pub fn write(r: &Random) -> Case {
    let mut telegram = telegram(r);
    for _ in 0..r.of(&[0, 0, 1, 1, 1, 2]) {
        damage_handed(r, &mut telegram);
    }
    let size = telegram.octets().len();
    let len = match r.below(8) {
        0 => r.of(&[size - 1, size - 1, size - 2, 0, 29, 30, r.index(size)]),
        1 | 2 => size + r.of(&[1, 2, 40]),
        _ => size,
    };
    let mut case = writing(&telegram, r.octets(len));
    if r.one_in(8) {
        disagree(r, &mut case);
    }
    case
}

/// A key, a text, octet 23 or the number of blocks is not good any more.
fn damage_handed(r: &Random, telegram: &mut Telegram) {
    let blocks = &mut telegram.blocks;
    let at = r.index(blocks.len().max(1));
    match r.below(10) {
        0 => telegram.front[22] = r.of(&[2, 3, 255]),
        1 => blocks.clear(),
        2 => {
            let count = r.of(&[9, 9, 10, 17, 300]);
            let more = |n: usize| Block::new((1 + n % 9) as u8, vec![]);
            blocks.extend((blocks.len()..count).map(more));
        }
        _ if blocks.is_empty() => {}
        3 | 4 => blocks[at].key = r.of(&[0, 9, 10, 128, 255]),
        5..=7 => blocks[at].key = blocks[r.index(blocks.len())].key,
        8 => blocks[at].text.push(r.octet()),
        _ => {
            // Good, once it is cut to 8 bits.
            let len = r.of(&[255, 256, 258, 510, 512, 4_094]);
            blocks[at].text = r.octets(len);
        }
    }
}

/// Keys, lengths and texts do not fit each other.
fn disagree(r: &Random, case: &mut Case) {
    let (lengths, at) = (&mut case.lengths, r.index(case.areas[2].len().max(1)));
    match r.below(8) {
        0 => case.areas[2].push(r.within(1, 8) as u8),
        1 => drop(case.areas[2].pop()),
        2 => lengths.push(r.of(&[0, 2])),
        3 => drop(lengths.pop()),
        4 if !lengths.is_empty() => lengths[at] = lengths[at].wrapping_add(r.of(&[1, 2, 65_534])),
        5 if !lengths.is_empty() => lengths[at] = r.of(&[0, 254, 65_535]),
        6 => drop(case.areas[3].pop()),
        _ => case.areas[3].push(r.octet()),
    }
}

pub fn read(r: &Random) -> Case {
    Case::new(Call::ReadRemedies, vec![any_telegram(r)], vec![])
}

/// A block, mostly one that the telegram has.
pub fn block(r: &Random) -> Case {
    let telegram = match r.one_in(3) {
        true => any_telegram(r),
        false => self::telegram(r).octets(),
    };
    let count = telegram.get(23).map_or(0, |&count| u64::from(count));
    let number = match r.below(8) {
        0 => r.of(&[count, count + 1, 8, 255, u64::MAX]),
        1 => r.beyond(r.below(count.max(1))),
        2 => count.saturating_sub(1),
        _ => r.below(count.max(1)),
    };
    Case::new(Call::RemedyBlock, vec![telegram], vec![number])
}

#[cfg(test)]
mod tests {
    use super::*;

    #[test]
    fn made_telegrams_are_read() {
        let mut longest = 0;
        for number in 0..1_000 {
            let telegram = telegram(&Random::of_case(11, number));
            let octets = telegram.octets();
            let read = reference::read_remedies(&octets).unwrap();
            assert_eq!(read.count, telegram.blocks.len());
            longest = longest.max(octets.len());
        }
        assert_eq!(longest, LONGEST);
    }
}
