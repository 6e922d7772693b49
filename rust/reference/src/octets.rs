//! "A field is a run of bits, first bit most significant." "Bit 0 of an octet is its most significant
//! bit." A bit address counts from bit 0 of the first octet given.

/// Whether `width` is 1 to 64 and the field lies wholly in `len` octets.
#[inline]
fn lies_within(len: usize, start: usize, width: usize) -> bool {
    (1..=64).contains(&width)
        && start
            .checked_add(width)
            .is_some_and(|end| end.div_ceil(8) <= len)
}

/// The octet at which an eight-octet window begins: at `wanted`, or as much earlier as it takes for eight
/// octets to be there. Fewer than eight octets are a window of their own.
#[inline]
fn window(len: usize, wanted: usize) -> usize {
    wanted.min(len.saturating_sub(8))
}

/// Fewer than eight octets as a window, zeros behind.
#[inline]
fn short_window(octets: &[u8]) -> [u8; 8] {
    let mut word = [0; 8];
    for (to, &from) in word.iter_mut().zip(octets) {
        *to = from;
    }
    word
}

/// A field that lies wholly in the window at octet `base`.
#[inline]
fn read_in_window(octets: &[u8], base: usize, start: usize, width: usize) -> u64 {
    let word = match octets[base..].first_chunk() {
        Some(&word) => word,
        None => short_window(octets),
    };
    (u64::from_be_bytes(word) << (start - 8 * base)) >> (64 - width)
}

/// Writes a field that lies wholly in the window at octet `base`.
#[inline]
fn write_in_window(octets: &mut [u8], base: usize, start: usize, width: usize, value: u64) {
    let mask = u64::MAX >> (64 - width);
    let shift = 64 - (start - 8 * base) - width;
    let changed = |word: [u8; 8]| {
        ((u64::from_be_bytes(word) & !(mask << shift)) | ((value & mask) << shift)).to_be_bytes()
    };
    match octets[base..].first_chunk_mut() {
        Some(word) => *word = changed(*word),
        None => {
            let word = changed(short_window(octets));
            for (to, from) in octets.iter_mut().zip(word) {
                *to = from;
            }
        }
    }
}

/// The field of `width` bits (1 to 64) at bit address `start`, "first bit most significant".
///
/// A field that is not wholly there, or of another width, reads as 0.
#[inline]
pub fn read_field(octets: &[u8], start: usize, width: usize) -> u64 {
    if !lies_within(octets.len(), start, width) {
        return 0;
    }
    let base = window(octets.len(), start / 8);
    let here = 64 - (start - 8 * base);
    if width <= here {
        return read_in_window(octets, base, start, width);
    }
    // Nine octets: the last holds the bits left over.
    let left = width - here;
    let high = read_in_window(octets, base, start, here);
    (high << left) | u64::from(octets[base + 8] >> (8 - left))
}

/// Writes the low `width` bits (1 to 64) of `value` as the field at bit address `start` and "changes no
/// other bit".
///
/// A field that is not wholly there, or of another width, is not written.
#[inline]
pub fn write_field(octets: &mut [u8], start: usize, width: usize, value: u64) {
    if !lies_within(octets.len(), start, width) {
        return;
    }
    let base = window(octets.len(), start / 8);
    let here = 64 - (start - 8 * base);
    if width <= here {
        return write_in_window(octets, base, start, width, value);
    }
    // Nine octets: the last takes the bits left over.
    let left = width - here;
    write_in_window(octets, base, start, here, value >> left);
    let next = window(octets.len(), base + 8);
    write_in_window(octets, next, start + here, left, value);
}

/// "A check mark is a two-bit field": at an even address, so in one octet.
#[inline]
pub(crate) fn read_mark(octets: &[u8], place: usize) -> u8 {
    (octets[place / 8] >> (6 - place % 8)) & 3
}
