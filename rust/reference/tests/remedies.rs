//! C-11: telegrams with remedy texts, read and written.

mod support;

use std::ptr;

use reference::{
    e_answer, e_read, read_remedies, remedy_block, write_remedies, EReading, Refusal, Remedies,
    Remedy,
};
use support::{plain, refusal, Random, EASE};

/// Octets 1 to 30: language 0407, octet 23 is 1, and what is not read is C3.
fn front(count: u8) -> Vec<u8> {
    let mut front = vec![0xC3; 30];
    front[6..8].copy_from_slice(&[0x8A, 0x08]);
    front[20..24].copy_from_slice(&[4, 7, 1, count]);
    front
}

/// A block by its numbers, whether they fit each other or not.
fn block(length: usize, key: u8, text_length: usize, text: &[u8]) -> Vec<u8> {
    let [l0, l1] = (length as u16).to_be_bytes();
    let [t0, t1] = (text_length as u16).to_be_bytes();
    [&[l0, l1, key, 0xC3, t0, t1], text].concat()
}

fn good(key: u8, text: &[u8]) -> Vec<u8> {
    block(6 + text.len(), key, text.len(), text)
}

fn telegram(blocks: &[Vec<u8>]) -> Vec<u8> {
    [front(blocks.len() as u8), blocks.concat()].concat()
}

/// Three texts, of which one is empty, under the keys 3, 8 and 1.
fn three() -> [Vec<u8>; 3] {
    [good(3, b"restart."), good(8, b""), good(1, b"test")]
}

/// As long as a telegram can be.
fn longest() -> Vec<u8> {
    let keys = [8, 1, 7, 2, 6, 3, 5, 4];
    telegram(&keys.map(|key| good(key, &[key; 254])))
}

/// The number by which a telegram is refused, whatever is asked of it.
fn refused(telegram: &[u8]) -> u8 {
    let refused = read_remedies(telegram).expect_err("a refusal");
    assert_eq!(refused.carried, 0);
    for block in [0, 1, 7, 8, usize::MAX] {
        assert_eq!(remedy_block(telegram, block), Err(refused));
    }
    refused.number
}

fn with(telegram: &[u8], at: usize, octets: &[u8]) -> Vec<u8> {
    let mut telegram = telegram.to_vec();
    telegram[at..at + octets.len()].copy_from_slice(octets);
    telegram
}

#[test]
fn a_telegram_is_read() {
    let telegram = telegram(&three());
    assert_eq!(
        read_remedies(&telegram),
        Ok(Remedies {
            language: 0x0407,
            ordered: 1,
            count: 3
        })
    );
    for (number, key, from, to) in [(0, 3, 36, 44), (1, 8, 50, 50), (2, 1, 56, 60)] {
        let text = &telegram[from..to];
        let found = remedy_block(&telegram, number).unwrap().unwrap();
        assert_eq!(found, Remedy { key, text });
        // "the part of the telegram it stands in"
        assert!(ptr::eq(found.text, text));
    }
    for none in [3, 4, 8, 255, 256, 1 << 32, usize::MAX] {
        assert_eq!(remedy_block(&telegram, none), Ok(None));
    }
    // No language is refused, and neither is any octet of what is not read.
    for octet in [0, 1, 0x7F, 0xFF] {
        let mut other = with(&telegram, 20, &[octet, octet]);
        for at in (0..6).chain(8..20).chain(24..30).chain([33, 47, 53]) {
            other[at] = octet;
        }
        let read = read_remedies(&other).unwrap();
        assert_eq!(read.language, u16::from(octet) * 257);
    }
}

#[test]
fn the_longest_telegram() {
    let longest = longest();
    assert_eq!(longest.len(), 2_110);
    assert_eq!(read_remedies(&longest).map(|read| read.count), Ok(8));
    for (number, key) in [8, 1, 7, 2, 6, 3, 5, 4].into_iter().enumerate() {
        let text = &[key; 254][..];
        let found = remedy_block(&longest, number);
        assert_eq!(found, Ok(Some(Remedy { key, text })));
    }
    assert_eq!(refused(&[&longest[..], &[0]].concat()), 21);
}

/// "For this code only, the limit behind 21 becomes 2,110 octets", for every reader of E-telegrams.
#[test]
fn the_limit_by_code() {
    for len in (0..40).chain(1_020..1_030).chain(2_105..2_115) {
        for code in [0x8A08, 0x8008, 0x8A07, 0x8A09, 0x0A08, 0x9001] {
            let mut telegram = vec![0; len.max(9)];
            telegram[6..8].copy_from_slice(&u16::to_be_bytes(code));
            telegram.truncate(len);
            let limit = if code == 0x8A08 { 2_110 } else { 1_024 };
            let fits = (9..=limit).contains(&len);
            let too_long = e_read(&telegram) == Err(refusal(21, 0));
            assert_eq!(too_long, !fits, "{code:04X}, {len}");
            let number = if fits && len >= 30 { 29 } else { 21 };
            assert_eq!(refused(&telegram), number, "{code:04X}, {len}");
        }
    }
}

/// A long report is read by its code and octet 9, whatever its blocks are, and is not answered.
#[test]
fn a_long_report_as_any_other() {
    let mut sent = vec![7; 2_110];
    sent[6..8].copy_from_slice(&[0x8A, 0x08]);
    let report = EReading {
        code: 0x8A08,
        report: true,
        status: 7,
    };
    let mut out = [0x5A; 9];
    for len in [9, 1_024, 1_025, 2_110] {
        assert_eq!(e_read(&sent[..len]), Ok(report));
        let answer = e_answer(&sent[..len], &[], 0, &mut out);
        assert_eq!(answer, Err(refusal(23, 0)));
    }
    sent.push(7);
    let answer = e_answer(&sent, &[0; 6], 0, &mut out);
    assert_eq!(answer, Err(refusal(21, 0)));
    assert_eq!(out, [0x5A; 9]);
}

/// Each field of octets 7-24, and of the first block, at the ends of its range and past them.
#[test]
fn each_field() {
    let t = telegram(&three());
    for (at, octets, number) in [
        (6, &[0x80, 0x08][..], 29),
        (6, &[0x8A, 0x09], 29),
        (22, &[0], 0),
        (22, &[2], 29),
        (22, &[255], 29),
        (23, &[0], 29),
        (23, &[2], 28),
        (23, &[4], 28),
        (23, &[8], 28),
        (23, &[9], 29),
        (30, &[0, 0], 29),
        (30, &[0, 5], 29),
        (30, &[0, 13], 29),
        (30, &[0, 15], 29),
        (30, &[0, 30], 29),
        (30, &[0, 31], 28),
        (30, &[1, 14], 28),
        (30, &[0xFF, 0xFF], 28),
        (32, &[0], 29),
        (32, &[2], 0),
        (32, &[9], 29),
        (32, &[8], 30),
        (32, &[1], 30),
        (34, &[0, 7], 29),
        (34, &[0, 10], 29),
        (34, &[1, 8], 29),
    ] {
        let read = read_remedies(&with(&t, at, octets));
        let told = read.map_or_else(|refused| refused.number, |_| 0);
        assert_eq!(told, number, "{octets:?} at {at}");
    }
}

#[test]
fn texts_and_ends() {
    for text in [253, 254, 255, 256, 300] {
        let read = read_remedies(&telegram(&[good(5, &vec![7; text])]));
        let told = read.map_or_else(|refused| refused.number, |_| 0);
        assert_eq!(told, if text == 254 { 0 } else { 29 }, "{text} octets");
    }
    let t = telegram(&three());
    for cut in 0..t.len() {
        let number = if cut < 30 { 21 } else { 28 };
        assert_eq!(refused(&t[..cut]), number, "{cut} octets");
    }
    for more in [1, 2, 6, 100] {
        assert_eq!(refused(&[&t[..], &vec![0; more]].concat()), 28);
    }
}

/// Two faults of octets 7-24, or of what is there at all.
#[test]
fn the_front_of_two_faults() {
    let t = telegram(&three());
    let of = |code: u16, len: usize| {
        let mut t = with(&front(1), 6, &code.to_be_bytes());
        t.resize(len, 0);
        t
    };
    assert_eq!(refused(&of(0x8A09, 29)), 21);
    assert_eq!(refused(&of(0x8A09, 1_025)), 21);
    assert_eq!(refused(&of(0x8A09, 1_024)), 29);
    // Another code or octet 23 is 2, whatever is behind.
    let after = [&t[..], &[0]].concat();
    let past = t[..t.len() - 1].to_vec();
    let twice = telegram(&[good(3, b""), good(3, b"")]);
    let zero = telegram(&[good(0, b"")]);
    for bad in [after, past, twice, zero] {
        assert_ne!(refused(&bad), 21);
        assert_eq!(refused(&with(&bad, 6, &[0x80, 0x08])), 29);
        assert_eq!(refused(&with(&bad, 22, &[2])), 29);
    }
    assert_eq!(refused(&with(&t, 23, &[0])), 29);
    assert_eq!(refused(&with(&t, 23, &[9])), 29);
}

/// "the first bad block deciding by its lowest number, then octets after the last".
#[test]
fn blocks_of_two_faults() {
    let past = block(8, 1, 2, b"a");
    let told = |blocks: &[Vec<u8>]| refused(&telegram(blocks));
    assert_eq!(told(std::slice::from_ref(&past)), 28);
    assert_eq!(told(&[block(8, 0, 2, b"a")]), 28);
    assert_eq!(told(&[good(0, b""), past.clone()]), 29);
    assert_eq!(told(&[good(2, b""), past.clone()]), 28);
    // Its key twice, and something else of the same block.
    assert_eq!(told(&[good(1, b""), block(8, 1, 4, b"ab")]), 29);
    assert_eq!(told(&[good(1, b""), past.clone()]), 28);
    assert_eq!(told(&[good(1, b""), good(1, b"a")]), 29);
    // Its key twice, and something behind it.
    let twice = telegram(&[good(1, b""), good(1, b"ab")]);
    assert_eq!(refused(&twice), 30);
    assert_eq!(refused(&[&twice[..], &[0]].concat()), 30);
    assert_eq!(told(&[good(2, b""), good(2, b""), past.clone()]), 30);
    assert_eq!(told(&[good(2, b""), good(2, b""), good(0, b"")]), 30);
    // The text would run past the end, the block does not.
    assert_eq!(told(&[block(8, 1, 254, b"ab")]), 29);
    // A block's end is by its length: what its text leaves over belongs to it.
    assert_eq!(told(&[block(8, 1, 0, b"ab")]), 29);
    // Nothing, or not enough, is left for block 3.
    let two = [good(4, b"ab"), good(5, b"")];
    let both = telegram(&two);
    assert_eq!(refused(&[&both[..], &[0]].concat()), 28);
    let three = with(&both, 23, &[3]);
    for left in 0..6 {
        assert_eq!(refused(&[&three[..], &vec![0; left]].concat()), 28);
    }
    assert_eq!(refused(&[&three[..], &[0; 6]].concat()), 29);
}

/// Holds what is read to what is told in the plainest way.
fn held(telegram: &[u8]) -> Result<usize, u8> {
    let wanted = plain::remedies(telegram);
    let read = read_remedies(telegram);
    assert_eq!(
        read.map(|read| read.count)
            .map_err(|refused| refused.number),
        wanted.clone().map(|blocks| blocks.len()),
        "{telegram:02X?}"
    );
    match &wanted {
        Ok(blocks) => {
            let read = read.unwrap();
            let front = [telegram[20], telegram[21], telegram[22]];
            let [l0, l1] = read.language.to_be_bytes();
            assert_eq!([l0, l1, read.ordered], front);
            for (number, &(key, from, to)) in blocks.iter().enumerate() {
                let found = remedy_block(telegram, number).unwrap().unwrap();
                assert_eq!(found.key, key);
                assert!(ptr::eq(found.text, &telegram[from..to]));
            }
            assert_eq!(remedy_block(telegram, blocks.len()), Ok(None));
        }
        Err(number) => assert_eq!(refused(telegram), *number),
    }
    wanted.map(|blocks| blocks.len())
}

#[test]
fn every_octet_of_a_telegram() {
    let t = telegram(&three());
    for at in 0..t.len() {
        for octet in 0..=255 {
            let _ = held(&with(&t, at, &[octet]));
        }
    }
}

/// Blocks that may be handed in: mostly good, of up to eight keys in any order.
fn made(r: &mut Random) -> Vec<(u8, Vec<u8>)> {
    let mut keys = [1, 2, 3, 4, 5, 6, 7, 8];
    for at in 0..8 {
        keys.swap(at, r.below(8) as usize);
    }
    let count = r.within(1, 8) as usize;
    let most = r.of(&[0, 4, 20, 127]);
    let mut text = || {
        let any = r.below(most + 1);
        let len = 2 * r.of(&[0, most, any]);
        r.octets(len as usize)
    };
    keys[..count].iter().map(|&key| (key, text())).collect()
}

/// A telegram with something done to it: cut, one more octet, an octet or a bit another, or a number of a block.
fn spoiled(r: &mut Random, mut t: Vec<u8>) -> Vec<u8> {
    let starts: Vec<usize> = plain::remedies(&t)
        .unwrap()
        .iter()
        .map(|&(_, from, _)| from - 6)
        .collect();
    let start = r.of(&starts);
    let at = r.below(t.len() as u64) as usize;
    match r.below(8) {
        0 => t.truncate(at),
        1 => t.push(r.word() as u8),
        2 => t[at] ^= 1 << r.below(8),
        3 => t[start + 2] = r.of(&[0, 1, 2, 8, 9, 255]),
        4 => t[start + 1] = t[start + 1].wrapping_add(r.of(&[1, 2, 254, 255])),
        5 => t[start + 5] = t[start + 5].wrapping_add(r.of(&[1, 2, 254, 255])),
        6 => t[start + 2] = t[r.of(&starts) + 2],
        _ => t[23] = r.of(&[0, 1, 2, 7, 8, 9]),
    }
    t
}

#[test]
fn made_and_spoiled_telegrams() {
    let mut r = Random::new(11);
    let mut met = [0; 31];
    for _ in 0..20_000 / EASE {
        let blocks: Vec<Vec<u8>> = made(&mut r).iter().map(|(key, t)| good(*key, t)).collect();
        let t = telegram(&blocks);
        assert_eq!(held(&t), Ok(blocks.len()));
        let mut t = spoiled(&mut r, t);
        if r.one_in(3) && plain::remedies(&t).is_ok() {
            t = spoiled(&mut r, t);
        }
        met[held(&t).map_or_else(usize::from, |_| 0)] += 1;
    }
    for number in [0, 21, 28, 29, 30] {
        assert!(met[number] > 20, "{met:?}");
    }
}

/// What the writer is handed.
#[derive(Debug, Clone, PartialEq)]
struct Handed {
    head: [u8; 6],
    carried: [u8; 12],
    language: u16,
    ordered: u8,
    keys: Vec<u8>,
    lengths: Vec<u16>,
    texts: Vec<u8>,
}

impl Handed {
    fn of(blocks: &[(u8, &[u8])]) -> Self {
        Handed {
            head: [1, 2, 3, 4, 5, 6],
            carried: [9, 10, 11, 12, 13, 14, 15, 16, 17, 18, 19, 20],
            language: 0x0407,
            ordered: 1,
            keys: blocks.iter().map(|(key, _)| *key).collect(),
            lengths: blocks.iter().map(|(_, text)| text.len() as u16).collect(),
            texts: blocks.iter().flat_map(|(_, text)| text.to_vec()).collect(),
        }
    }

    /// As a telegram that was read has it.
    fn read(telegram: &[u8]) -> Self {
        let read = read_remedies(telegram).unwrap();
        let block = |number| remedy_block(telegram, number).unwrap().unwrap();
        let blocks: Vec<(u8, &[u8])> = (0..read.count)
            .map(block)
            .map(|found| (found.key, found.text))
            .collect();
        Handed {
            head: telegram[..6].try_into().unwrap(),
            carried: telegram[8..20].try_into().unwrap(),
            language: read.language,
            ordered: read.ordered,
            ..Handed::of(&blocks)
        }
    }

    fn write(&self, out: &mut [u8]) -> Result<usize, Refusal> {
        write_remedies(
            &self.head,
            &self.carried,
            self.language,
            self.ordered,
            &self.keys,
            &self.lengths,
            &self.texts,
            out,
        )
    }

    /// The number by which it is refused, with an output of so many octets, which all stay.
    fn refused(&self, len: usize) -> u8 {
        let mut out = vec![0xEE; len];
        let refused = self.write(&mut out).expect_err("a refusal");
        assert_eq!((refused.carried, out), (0, vec![0xEE; len]));
        refused.number
    }
}

#[test]
fn a_telegram_is_written() {
    let handed = Handed::of(&[(3, b"test"), (8, b"")]);
    #[rustfmt::skip]
    let wanted = [
        1, 2, 3, 4, 5, 6, 0x8A, 0x08, 9, 10, 11, 12, 13, 14, 15, 16, 17, 18, 19, 20,
        0x04, 0x07, 1, 2, 0, 0, 0, 0, 0, 0,
        0, 10, 3, 0, 0, 4, b't', b'e', b's', b't',
        0, 6, 8, 0, 0, 0,
    ];
    for more in [0, 1, 40, 3_000] {
        let mut out = vec![0xEE; 46 + more];
        assert_eq!(handed.write(&mut out), Ok(46));
        assert_eq!(out[..46], wanted);
        assert_eq!(out[46..], vec![0xEE; more]);
    }
}

#[test]
fn what_the_writer_refuses() {
    let good = Handed::of(&[(3, b"test"), (8, b"")]);
    for len in [0, 1, 29, 30, 36, 45] {
        assert_eq!(good.refused(len), 25, "{len} octets");
    }
    for ordered in [2, 3, 255] {
        assert_eq!(
            Handed {
                ordered,
                ..good.clone()
            }
            .refused(46),
            29
        );
    }
    assert_eq!(Handed::of(&[]).refused(30), 29);
    assert_eq!(Handed::of(&[]).refused(29), 25);
    for (key, number) in [(0, 29), (9, 29), (255, 29), (3, 30)] {
        assert_eq!(Handed::of(&[(3, b""), (key, b"")]).refused(42), number);
    }
    for len in [1, 253, 255, 256, 257, 510, 512, 65_535] {
        let handed = Handed::of(&[(3, &vec![7; len])]);
        assert_eq!(handed.refused(36 + len), 29, "{len} octets");
        assert_eq!(handed.refused(35 + len), 25, "{len} octets");
    }
}

/// Keys, lengths and texts that are no blocks are 29, with room or without.
#[test]
fn tables_that_disagree() {
    let good = Handed::of(&[(3, b"test"), (8, b""), (1, b"ok")]);
    let changed = |change: fn(&mut Handed)| {
        let mut handed = good.clone();
        change(&mut handed);
        handed
    };
    for handed in [
        changed(|h| h.keys.push(2)),
        changed(|h| h.keys.truncate(2)),
        changed(|h| h.keys.clear()),
        changed(|h| h.lengths.push(0)),
        changed(|h| h.lengths.truncate(2)),
        changed(|h| h.lengths.clear()),
        changed(|h| h.lengths[0] += 2),
        changed(|h| h.lengths[2] -= 2),
        changed(|h| h.lengths[1] = 65_535),
        changed(|h| h.lengths = vec![65_535; 3]),
        changed(|h| h.texts.push(0)),
        changed(|h| h.texts.truncate(5)),
        changed(|h| h.texts.clear()),
    ] {
        for len in [0, 29, 30, 54, 3_000] {
            assert_eq!(handed.refused(len), 29);
        }
    }
    // What adds up is one text and no other, wherever the lengths part it.
    assert!(changed(|h| h.lengths = vec![0, 6, 0])
        .write(&mut [0; 54])
        .is_ok());
}

#[test]
fn of_two_faults_handed_in() {
    let mut short = Handed::of(&[(3, b"test")]);
    short.ordered = 2;
    assert_eq!(short.refused(39), 25);
    assert_eq!(short.refused(40), 29);
    let nine = Handed::of(&[1, 2, 3, 4, 5, 6, 7, 8, 1].map(|key| (key, &b""[..])));
    assert_eq!(nine.refused(83), 25);
    assert_eq!(nine.refused(84), 29);
    let many = Handed::of(&[(0, &b"a"[..]); 300]);
    assert_eq!(many.refused(30 + 7 * 300 - 1), 25);
    assert_eq!(many.refused(30 + 7 * 300), 29);
    assert_eq!(Handed::of(&[(2, b""), (2, b"a")]).refused(100), 29);
    assert_eq!(Handed::of(&[(2, b""), (2, b""), (9, b"")]).refused(100), 30);
    assert_eq!(Handed::of(&[(9, b""), (2, b""), (2, b"")]).refused(100), 29);
    short.lengths[0] = 5;
    assert_eq!(short.refused(0), 29);
}

/// What is written reads back; what was read and is written again has its reserve at 0, and all else is as it was.
#[test]
fn there_and_back() {
    let mut r = Random::new(88);
    for _ in 0..5_000 / EASE {
        let blocks = made(&mut r);
        let lent: Vec<(u8, &[u8])> = blocks.iter().map(|(key, t)| (*key, &t[..])).collect();
        let handed = Handed {
            head: r.octets(6).try_into().unwrap(),
            carried: r.octets(12).try_into().unwrap(),
            language: r.word() as u16,
            ordered: r.below(2) as u8,
            ..Handed::of(&lent)
        };
        let size = 30 + 6 * blocks.len() + handed.texts.len();
        let (more, octet) = (r.of(&[0, 1, 9]), r.word() as u8);
        let mut out = vec![octet; size + more];
        assert_eq!(handed.write(&mut out), Ok(size));
        assert_eq!(out[size..], vec![octet; more]);
        out.truncate(size);
        assert_eq!(Handed::read(&out), handed);

        let mut other = out.clone();
        let blocks = plain::remedies(&out).unwrap();
        let reserve = (24..30).chain(blocks.iter().map(|&(_, from, _)| from - 3));
        reserve.for_each(|at| other[at] = r.word() as u8);
        let mut again = vec![octet; size];
        assert_eq!(Handed::read(&other).write(&mut again), Ok(size));
        assert_eq!(again, out);
    }
}
