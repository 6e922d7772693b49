//! C-11, "Remedy texts on the desk": "the remedies and tests of telegram 8.8A (code 8A08, source document 000) shown with the keys F1 to F8".

use crate::etelegram::{limit_of, REMEDIES};
use crate::refusal::Refusal;

/// "Blocks start at octet 31".
const FRONT: usize = 30;
/// The octets of a block before its text: "length (2), key 1-8 (1), reserve (1), text length (2), text".
const BEFORE: usize = 6;

/// What a telegram says beside its blocks.
#[derive(Debug, Clone, Copy, PartialEq, Eq)]
pub struct Remedies {
    /// "Octets 21-22 are the language".
    pub language: u16,
    /// "23 is 0 or 1".
    pub ordered: u8,
    /// "24 the number of blocks 1-8".
    pub count: usize,
}

/// A block.
#[derive(Debug, Clone, Copy, PartialEq, Eq)]
pub struct Remedy<'a> {
    /// "key 1-8".
    pub key: u8,
    /// "a text comes back as the part of the telegram it stands in".
    pub text: &'a [u8],
}

/// Reads the telegram. Refusals 21, 28, 29, 30.
pub fn read_remedies(telegram: &[u8]) -> Result<Remedies, Refusal> {
    read_all(telegram, |_, _| ())
}

/// Block number `block` of the telegram, from 0; none past its last. Refusals 21, 28, 29, 30.
pub fn remedy_block(telegram: &[u8], block: usize) -> Result<Option<Remedy<'_>>, Refusal> {
    let mut found = None;
    read_all(telegram, |number, remedy| {
        if number == block {
            found = Some(remedy);
        }
    })?;
    Ok(found)
}

/// "octets 7-24 first, then blocks in order, the first bad block deciding by its lowest number, then octets after the last": hands each good
/// block on, by its number.
#[inline]
fn read_all<'a>(
    telegram: &'a [u8],
    mut each: impl FnMut(usize, Remedy<'a>),
) -> Result<Remedies, Refusal> {
    // "21 also from this reader under 30 octets".
    let Some((front, mut rest)) = telegram.split_first_chunk::<FRONT>() else {
        return Err(Refusal::plain(21));
    };
    let code = u16::from_be_bytes([front[6], front[7]]);
    if telegram.len() > limit_of(code) {
        return Err(Refusal::plain(21));
    }
    let (ordered, count) = (front[22], usize::from(front[23]));
    if code != REMEDIES || !counts(ordered, count) {
        return Err(Refusal::plain(29));
    }
    let mut keys = Keys::default();
    for number in 0..count {
        let (remedy, behind) = block(rest)?;
        keys.press(remedy.key)?;
        each(number, remedy);
        rest = behind;
    }
    match rest {
        [] => Ok(Remedies {
            language: u16::from_be_bytes([front[20], front[21]]),
            ordered,
            count,
        }),
        _ => Err(Refusal::plain(28)),
    }
}

/// The block that these octets begin with, and those behind it. Refusals 28, 29.
#[inline]
fn block(octets: &[u8]) -> Result<(Remedy<'_>, &[u8]), Refusal> {
    // "28 block, or its first 6 octets, runs past the end".
    let Some(&[l0, l1, key, _, t0, t1]) = octets.first_chunk::<BEFORE>() else {
        return Err(Refusal::plain(28));
    };
    let length = usize::from(u16::from_be_bytes([l0, l1]));
    let text_length = usize::from(u16::from_be_bytes([t0, t1]));
    let Some((block, behind)) = octets.split_at_checked(length) else {
        return Err(Refusal::plain(28));
    };
    // "29 .. a field out of its range or a block length that disagrees".
    if !fits(key, text_length) || length != BEFORE + text_length {
        return Err(Refusal::plain(29));
    }
    let text = &block[BEFORE..];
    Ok((Remedy { key, text }, behind))
}

/// "23 is 0 or 1, 24 the number of blocks 1-8".
#[inline]
fn counts(ordered: u8, count: usize) -> bool {
    ordered <= 1 && (1..=8).contains(&count)
}

/// "key 1-8", "text length, which is even, 0 to 254".
#[inline]
fn fits(key: u8, text_length: usize) -> bool {
    (1..=8).contains(&key) && text_length.is_multiple_of(2) && text_length <= 254
}

/// The keys so far: "no key comes twice".
#[derive(Default)]
struct Keys(u16);

impl Keys {
    /// One more, of 1 to 8. Refusal 30.
    #[inline]
    fn press(&mut self, key: u8) -> Result<(), Refusal> {
        let bit = 1 << key;
        if self.0 & bit != 0 {
            return Err(Refusal::plain(30));
        }
        self.0 |= bit;
        Ok(())
    }
}

/// Writes the telegram into the first octets of `out` and gives their number. `head` is octets 1-6, `carried` octets 9-20; each block has a key
/// and a length, and the texts stand in one area, one behind the other. Refusals 29 where these do not fit each other, then 25, 29, 30.
#[allow(clippy::too_many_arguments)]
pub fn write_remedies(
    head: &[u8; 6],
    carried: &[u8; 12],
    language: u16,
    ordered: u8,
    keys: &[u8],
    lengths: &[u16],
    texts: &[u8],
    out: &mut [u8],
) -> Result<usize, Refusal> {
    judge_handed(ordered, keys, lengths, texts.len(), out.len())?;
    let (front, behind) = out.split_at_mut(FRONT);
    front[..6].copy_from_slice(head);
    front[6..8].copy_from_slice(&REMEDIES.to_be_bytes());
    front[8..20].copy_from_slice(carried);
    front[20..22].copy_from_slice(&language.to_be_bytes());
    // "reserve is written 0".
    front[22..].copy_from_slice(&[ordered, keys.len() as u8, 0, 0, 0, 0, 0, 0]);
    Ok(FRONT + write_blocks(keys, lengths, texts, behind))
}

/// What is handed to the writer, with so many octets of text and of output. Refusals 29, 25, 29, 30, in this order.
#[inline]
fn judge_handed(
    ordered: u8,
    keys: &[u8],
    lengths: &[u16],
    texts: usize,
    out: usize,
) -> Result<(), Refusal> {
    let left = lengths
        .iter()
        .try_fold(texts, |left, &length| left.checked_sub(length.into()));
    if keys.len() != lengths.len() || left != Some(0) {
        return Err(Refusal::plain(29));
    }
    // "25 output under 30 plus, for each block handed in, 6 plus its text's octets".
    let room = out.checked_sub(FRONT + texts);
    if room.is_none_or(|room| room / BEFORE < keys.len()) {
        return Err(Refusal::plain(25));
    }
    if !counts(ordered, keys.len()) {
        return Err(Refusal::plain(29));
    }
    let mut pressed = Keys::default();
    for (&key, &length) in keys.iter().zip(lengths) {
        if !fits(key, length.into()) {
            return Err(Refusal::plain(29));
        }
        pressed.press(key)?;
    }
    Ok(())
}

/// Writes blocks that were found good and have room, and gives their octets.
#[inline]
fn write_blocks(keys: &[u8], lengths: &[u16], mut texts: &[u8], out: &mut [u8]) -> usize {
    let mut at = 0;
    for (&key, &length) in keys.iter().zip(lengths) {
        let (text, behind) = texts.split_at(length.into());
        let ([l0, l1], [t0, t1]) = ((length + 6).to_be_bytes(), length.to_be_bytes());
        let (before, rest) = out[at..].split_at_mut(BEFORE);
        before.copy_from_slice(&[l0, l1, key, 0, t0, t1]);
        rest[..text.len()].copy_from_slice(text);
        at += BEFORE + text.len();
        texts = behind;
    }
    at
}
