//! C-14, "Build the consist from christening telegrams": "Take each vehicle's properties from its christening record."

use crate::refusal::Refusal;
use crate::train::{judge_rule, COACH, LEADING, LED, SLEEPING, TRACTIVE};

/// "one 56-octet record a vehicle".
const RECORD: usize = 56;

/// "its level (gateway or vehicle)".
#[derive(Debug, Clone, Copy, PartialEq, Eq)]
pub enum Level {
    /// A property of the gateway.
    Gateway = 0,
    /// A property of the vehicle.
    Vehicle = 1,
}

/// A row of source document 002, table E.1, in a record.
#[derive(Debug, Clone, Copy, PartialEq, Eq)]
pub struct Property {
    /// Its level.
    pub level: Level,
    /// The octet of its place, from 1.
    pub octet: u8,
    /// The bit of its place; 0 is the most significant.
    pub bit: u8,
    /// Whether the bit at its place is set.
    pub holds: bool,
}

/// "every row of source document 002, table E.1, that has an octet/bit place": the places of a level follow one another from the first bit of an
/// octet on, and here are their rows in that order, in runs of row numbers that do so too, each with its first and its last.
struct Rows {
    level: Level,
    octet: usize,
    runs: &'static [(usize, usize)],
}

const TABLE: [Rows; 2] = [
    Rows {
        level: Level::Gateway,
        octet: 22,
        runs: &[
            (17, 17),
            (19, 19),
            (21, 24),
            (29, 37),
            // "Row 142 is printed twice there; enter it once."
            (142, 142),
            (38, 41),
            (44, 104),
            (106, 107),
            (110, 117),
            (119, 121),
            (123, 124),
            (126, 126),
            (128, 128),
            (131, 132),
            (143, 152),
        ],
    },
    Rows {
        level: Level::Vehicle,
        octet: 50,
        runs: &[
            (1, 16),
            (18, 18),
            (20, 20),
            (25, 28),
            (42, 43),
            (105, 105),
            (108, 109),
            (118, 118),
            (122, 122),
            (125, 125),
            (127, 127),
            (129, 130),
            (141, 141),
        ],
    },
];

/// Where a row stands: its level, and its place as a bit address.
#[derive(Clone, Copy)]
struct Place {
    level: Level,
    address: usize,
}

/// The place of each row by its number, where there is such a row.
const PLACES: [Option<Place>; 153] = {
    let mut places = [None; 153];
    let mut rows = 0;
    while rows < TABLE.len() {
        let Rows { level, octet, runs } = TABLE[rows];
        let mut address = 8 * (octet - 1);
        let mut run = 0;
        while run < runs.len() {
            let (mut row, last) = runs[run];
            while row <= last {
                places[row] = Some(Place { level, address });
                address += 1;
                row += 1;
            }
            run += 1;
        }
        rows += 1;
    }
    places
};

#[inline]
fn is_set(record: &[u8; RECORD], address: usize) -> bool {
    record[address / 8] & (0x80 >> (address % 8)) != 0
}

/// The property of a row of table E.1, by its number, in a record; none where there is no such row.
pub fn property(record: &[u8; RECORD], row: u32) -> Option<Property> {
    let place = *PLACES.get(usize::try_from(row).ok()?)?;
    place.map(|Place { level, address }| Property {
        level,
        octet: (address / 8 + 1) as u8,
        bit: (address % 8) as u8,
        holds: is_set(record, address),
    })
}

/// The marks of a vehicle from its record and its pair of marks, of which 1 is leading and 8 led.
#[inline]
fn mark(record: &[u8; RECORD], pair: u8) -> u8 {
    let any = |mark: u8, octet: usize, bits: u8| match record[octet - 1] & bits {
        0 => 0,
        _ => mark,
    };
    // "Sleeping car is 51/4; tractive means 24/0 or 24/1; a vehicle is a coach if any of 50/0, 50/1, 51/0, 51/3, 51/4 is set."
    (pair & (LEADING | LED))
        | any(SLEEPING, 51, 0b0000_1000)
        | any(TRACTIVE, 24, 0b1100_0000)
        | any(COACH, 50, 0b1100_0000)
        | any(COACH, 51, 0b1001_1000)
}

/// Builds the consist: the marks of each vehicle, as [`crate::resolve`] takes them, into the first octets of `marks`, and gives their number.
/// "Leading and led are still handed in, a pair of marks a vehicle, beside one 56-octet record a vehicle in train order." Refusals "31 .. comes
/// first, then 17 and 18".
pub fn christen(records: &[u8], pairs: &[u8], marks: &mut [u8; 63]) -> Result<usize, Refusal> {
    let (records, part) = records.as_chunks::<RECORD>();
    if !part.is_empty() || records.len() != pairs.len() {
        return Err(Refusal::plain(31));
    }
    let mut train = [0; 63];
    let train = match train.get_mut(..pairs.len()) {
        None | Some([]) => return Err(Refusal::plain(17)),
        Some(train) => train,
    };
    for ((to, record), &pair) in train.iter_mut().zip(records).zip(pairs) {
        *to = mark(record, pair);
    }
    judge_rule(train)?;
    marks[..train.len()].copy_from_slice(train);
    Ok(train.len())
}

#[cfg(test)]
mod tests {
    use super::*;

    /// "prove once over the whole table that no two rows of one level share a place".
    #[test]
    fn no_two_rows_share_a_place() {
        let places = PLACES.iter().flatten();
        let mut places: Vec<_> = places.map(|p| (p.level as u8, p.address)).collect();
        assert_eq!(places.len(), 144);
        places.sort_unstable();
        places.dedup();
        assert_eq!(places.len(), 144);
    }

    #[test]
    fn no_row_stands_twice() {
        let runs = TABLE.iter().flat_map(|rows| rows.runs);
        let mut rows: Vec<usize> = runs.flat_map(|&(first, last)| first..=last).collect();
        rows.sort_unstable();
        assert_eq!(rows, (1..=132).chain(141..=152).collect::<Vec<_>>());
    }
}
