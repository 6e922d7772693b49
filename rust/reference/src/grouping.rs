//! "R1 grouping, a fixed table of 17 rows (check place: octets covered)".

use crate::refusal::Refusal;

/// A row: the check place and the bits it covers, from the first to before the end, as bit addresses.
struct Row {
    place: u16,
    first: u16,
    end: u16,
}

/// Check place `octet` bit `bit`, covering whole octets `from` to `to`.
const fn whole(octet: u16, bit: u16, from: u16, to: u16) -> Row {
    Row {
        place: 8 * (octet - 1) + bit,
        first: 8 * (from - 1),
        end: 8 * to,
    }
}

const ROWS: [Row; 17] = [
    whole(41, 0, 47, 53),
    whole(41, 2, 54, 57),
    whole(41, 4, 58, 58),
    whole(41, 6, 59, 61),
    Row {
        place: 8 * 41,
        first: 8 * 61,
        end: 8 * 61 + 4,
    },
    Row {
        place: 8 * 41 + 2,
        first: 8 * 61 + 4,
        end: 8 * 62,
    },
    whole(42, 4, 63, 63),
    whole(42, 6, 64, 64),
    whole(43, 0, 65, 65),
    whole(43, 2, 66, 66),
    whole(43, 4, 67, 67),
    whole(43, 6, 68, 68),
    whole(44, 0, 69, 69),
    whole(44, 2, 70, 70),
    whole(44, 4, 71, 71),
    whole(44, 6, 72, 72),
    whole(45, 0, 73, 73),
];

/// Octets 47-73 as bit addresses, from the first to before the end.
const FIRST: u64 = 8 * 46;
const END: u64 = 8 * 73;

/// The check place of each half octet of octets 47-73: every row begins and ends at a half octet.
const PLACES: [u16; ((END - FIRST) / 4) as usize] = {
    let mut places = [0; ((END - FIRST) / 4) as usize];
    let mut row = 0;
    while row < ROWS.len() {
        let mut half = ROWS[row].first / 4;
        while half < ROWS[row].end / 4 {
            places[half as usize - (FIRST / 4) as usize] = ROWS[row].place;
            half += 1;
        }
        row += 1;
    }
    places
};

/// "A lookup takes a bit address, gives the check place, as a bit address, of any bit of octets 47-73 and
/// refuses every other number (27)."
pub fn check_place(bit: u64) -> Result<u64, Refusal> {
    if !(FIRST..END).contains(&bit) {
        return Err(Refusal::plain(27));
    }
    Ok(u64::from(PLACES[((bit - FIRST) / 4) as usize]))
}

/// Whether all bits from `first` to before `end` stand under this check place: no place has two rows.
#[inline]
pub(crate) fn covers(place: u16, first: u16, end: u16) -> bool {
    let row = ROWS.iter().find(|row| row.place == place);
    row.is_some_and(|row| row.first <= first && end <= row.end)
}

#[cfg(test)]
mod tests {
    use super::*;

    #[test]
    fn no_place_has_two_rows() {
        assert!(ROWS.is_sorted_by(|a, b| a.place < b.place));
    }

    #[test]
    fn octets_47_to_73_are_covered_once() {
        for bit in 0..1024u16 {
            let covering = ROWS
                .iter()
                .filter(|row| (row.first..row.end).contains(&bit))
                .count();
            assert_eq!(
                covering,
                usize::from((46..73).contains(&(bit / 8))),
                "bit {bit}"
            );
        }
    }
}
