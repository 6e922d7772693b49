//! Christening records and rows of table E.1 that are few enough to try them all.

use crate::case::{Call, Case};
use crate::records::{christening, Vehicle, PLACES, RECORD};

pub fn each(try_one: &mut impl FnMut(Case)) {
    bits(try_one);
    places(try_one);
    octets(try_one);
    areas(try_one);
    lengths(try_one);
    rules(try_one);
    rows(try_one);
    rows_by_bits(try_one);
}

/// A record as it is, with this pair.
fn vehicle(record: [u8; RECORD], pair: u8) -> Vehicle {
    let mark = 0;
    Vehicle { mark, record, pair }
}

fn build(try_one: &mut impl FnMut(Case), train: &[Vehicle]) {
    try_one(christening(train, vec![0xEE; 63]));
}

/// A record with this bit alone.
fn alone(bit: usize) -> [u8; RECORD] {
    let mut record = [0; RECORD];
    record[bit / 8] = 0x80 >> (bit % 8);
    record
}

/// Every bit of a record alone, and missing alone: of one vehicle, and of the second of two that would take up the first one's record, with pairs
/// that ask for every mark.
fn bits(try_one: &mut impl FnMut(Case)) {
    for bit in 0..8 * RECORD {
        let others = alone(bit).map(|octet| !octet);
        for record in [alone(bit), others] {
            for pair in [0, 1, 8, 9, 0xF6, 0xFF] {
                let one = vehicle(record, pair);
                build(try_one, std::slice::from_ref(&one));
                let beside = vehicle(record.map(|octet| !octet), 0);
                build(try_one, &[beside, one]);
            }
        }
    }
}

/// The seven places in every way with every pair, and no other bit or all of them.
fn places(try_one: &mut impl FnMut(Case)) {
    for set in 0..1 << PLACES.len() {
        let places: Vec<usize> = (0..PLACES.len()).filter(|n| set >> n & 1 == 1).collect();
        for pair in 0..=255 {
            for others in [0, 0xFF] {
                build(try_one, &[Vehicle::new([others; RECORD], &places, pair)]);
            }
        }
    }
}

/// Every value of the octets that count, and of those beside, with pairs that ask for every mark.
fn octets(try_one: &mut impl FnMut(Case)) {
    for octet in [23, 24, 25, 49, 50, 51, 52] {
        for value in 0..=255 {
            for (others, pair) in [(0, 0), (0, 8), (0, 9), (0xFF, 0), (0xFF, 1), (0xFF, 8)] {
                let mut record = [others; RECORD];
                record[octet - 1] = value;
                build(try_one, &[vehicle(record, pair)]);
            }
        }
    }
}

/// Records of an area, pairs of another.
fn handed(try_one: &mut impl FnMut(Case), octets: usize, pairs: Vec<u8>) {
    let areas = vec![vec![0x3C; octets], pairs, vec![0xEE; 63]];
    try_one(Case::new(Call::Christen, areas, vec![]));
}

/// Every number of records up to 65, and some above, with an octet too many or too few, and with as many pairs or about so many; in a good train,
/// one in which two lead, and one in which one is led that may not be.
fn areas(try_one: &mut impl FnMut(Case)) {
    for records in (0..=65).chain([127, 128, 255, 256, 257, 319, 320]) {
        for (octets, more) in [-1, 0, 1]
            .into_iter()
            .flat_map(|octets| [-2, -1, 0, 1, 2].map(|more| (octets, more)))
        {
            let octets = (RECORD * records).saturating_add_signed(octets);
            let count = records.saturating_add_signed(more);
            for marked in [&[][..], &[1, 1], &[0, 8]] {
                let mut pairs = marked.to_vec();
                pairs.resize(count, 0);
                handed(try_one, octets, pairs);
            }
        }
    }
}

/// Every length of the record area up to that of three records, with few pairs; and pairs that are as many as records once they are cut to fewer
/// bits.
fn lengths(try_one: &mut impl FnMut(Case)) {
    for octets in 0..=3 * RECORD + 1 {
        (0..=4).for_each(|pairs| handed(try_one, octets, vec![0; pairs]));
    }
    for pairs in [256, 257, 65_536, 65_537] {
        handed(try_one, 0, vec![0; pairs]);
        handed(try_one, RECORD, vec![0; pairs]);
    }
}

/// Every pair of vehicles of which both lead, or one leads and the other is led, and every one that is led, with traction and without, in trains
/// of several lengths.
fn rules(try_one: &mut impl FnMut(Case)) {
    for len in [1, 2, 3, 63] {
        for (at, other) in (0..len).flat_map(|at| (0..len).map(move |other| (at, other))) {
            for (pair, second) in [(1, 1), (1, 8), (8, 8), (9, 0)] {
                for places in [&[0][..], &[1, 5], &[6]] {
                    let mut train = vec![Vehicle::new([0; RECORD], places, 0xF6); len];
                    train[other].pair |= second;
                    train[at].pair |= pair;
                    build(try_one, &train);
                }
            }
        }
    }
}

/// Every row number of 16 bits, and some above, of three records.
fn rows(try_one: &mut impl FnMut(Case)) {
    let mixed = std::array::from_fn(|at| (37 * at + 11) as u8);
    let above = (16..32).flat_map(|power| [0, 1, 13, 142, 152].map(|row| (1 << power) + row));
    for row in (0..=65_535).chain(above).chain([u64::from(u32::MAX)]) {
        for record in [[0; RECORD], [0xFF; RECORD], mixed] {
            try_one(Case::new(Call::Property, vec![record.to_vec()], vec![row]));
        }
    }
}

/// Every row of a record with each bit alone.
fn rows_by_bits(try_one: &mut impl FnMut(Case)) {
    for bit in 0..8 * RECORD {
        for row in 0..=160 {
            let record = alone(bit).to_vec();
            try_one(Case::new(Call::Property, vec![record], vec![row]));
        }
    }
}
