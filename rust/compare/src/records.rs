//! Christening records and pairs of marks, made from what the vehicles are, and handed in right and wrong.

use crate::case::{Call, Case};
use crate::random::Random;

/// The octets of a record.
pub const RECORD: usize = 56;

/// The places that marks are taken from: the row of table E.1, the octet from 1, and the bit by its weight.
pub const PLACES: [(u64, usize, u8); 7] = [
    (38, 24, 0x80),
    (39, 24, 0x40),
    (1, 50, 0x80),
    (2, 50, 0x40),
    (9, 51, 0x80),
    (12, 51, 0x10),
    (13, 51, 0x08),
];

/// How many of them, from the first, say tractive; how many behind those say coach; the last says sleeping, and coach too.
const TRACTIVE: usize = 2;
const COACH: usize = 4;

/// A vehicle: what it is, as an octet of marks, and a record and a pair that say so.
#[derive(Debug, Clone, PartialEq)]
pub struct Vehicle {
    pub mark: u8,
    pub record: [u8; RECORD],
    pub pair: u8,
}

/// Whether the record has the bit at one of these places.
pub fn has(record: &[u8], (_, octet, weight): (u64, usize, u8)) -> bool {
    record[octet - 1] & weight != 0
}

impl Vehicle {
    /// With these places set, in a record whose other bits are no matter.
    pub fn new(mut record: [u8; RECORD], places: &[usize], pair: u8) -> Self {
        for (_, octet, weight) in PLACES {
            record[octet - 1] &= !weight;
        }
        for &(_, octet, weight) in places.iter().map(|&place| &PLACES[place]) {
            record[octet - 1] |= weight;
        }
        let any = |mut of: std::ops::Range<usize>| of.any(|place| places.contains(&place));
        let marks = [
            (2, any(TRACTIVE..PLACES.len())),
            (4, any(0..TRACTIVE)),
            (16, any(TRACTIVE + COACH..PLACES.len())),
        ];
        let marks = marks.into_iter().filter(|(_, is)| *is);
        Vehicle {
            mark: marks.map(|(worth, _)| worth).sum::<u8>() + (pair & 9),
            record,
            pair,
        }
    }
}

/// Bits that say nothing of marks, none of them, all, one, many, few, or those beside the places and in the octets beside.
fn others(r: &Random) -> [u8; RECORD] {
    let mut record = [0; RECORD];
    let few = || r.octet() & r.octet() & r.octet();
    match r.below(6) {
        0 => {}
        1 => record.fill(0xFF),
        2 => record[r.index(RECORD)] = 1 << r.below(8),
        3 => record.fill_with(|| r.octet()),
        4 => record.fill_with(few),
        _ => [23, 24, 25, 49, 50, 51, 52]
            .iter()
            .for_each(|octet| record[octet - 1] = few()),
    }
    record
}

/// A vehicle that is so, by these marks.
pub fn vehicle(r: &Random, mark: u8) -> Vehicle {
    let some = |of: std::ops::Range<usize>| {
        let must = r.within(of.start as u64, of.end as u64 - 1) as usize;
        let more = r.one_in(2);
        let one = move |&place: &usize| place == must || more && r.one_in(2);
        of.filter(one).collect::<Vec<usize>>()
    };
    let (coach, sleeping) = (TRACTIVE..TRACTIVE + COACH, TRACTIVE + COACH);
    let places = match mark & 18 {
        0 => vec![],
        2 => some(coach),
        _ if r.one_in(2) => vec![sleeping],
        _ => [some(coach), vec![sleeping]].concat(),
    };
    let tractive = match mark & 4 {
        0 => vec![],
        _ => some(0..TRACTIVE),
    };
    let pair = mark & 9 | r.of(&[0, 0, 0xF6, r.octet() & 0xF6]);
    Vehicle::new(others(r), &[tractive, places].concat(), pair)
}

/// A train that keeps the rule: one vehicle leads or none, and led ones are among the tractive.
pub fn train(r: &Random, len: usize) -> Vec<Vehicle> {
    let alike = r.one_in(3).then(|| r.of(&[0, 2, 12, 18]));
    let any = || r.of(&[0, 2, 4, 6, 12, 14, 18, 22, 30]);
    let mut train: Vec<Vehicle> = (0..len)
        .map(|_| vehicle(r, alike.unwrap_or_else(any)))
        .collect();
    if len > 0 && !r.one_in(4) {
        let at = r.of(&[0, len - 1, r.index(len)]);
        train[at] = vehicle(r, r.of(&[1, 3, 5, 7, 19, 23]));
    }
    train
}

/// Two lead, or one is led that may not be.
fn break_rule(r: &Random, train: &mut [Vehicle]) {
    let len = train.len();
    let at = r.of(&[0, len - 1, r.index(len)]);
    let mark = match r.below(4) {
        0 => r.of(&[8, 10, 26]),
        1 => r.of(&[9, 11, 13, 15, 27, 31]),
        2 => r.of(&[1, 5, 7]),
        _ => {
            train[len - 1 - at] = vehicle(r, r.of(&[1, 5, 7]));
            r.of(&[1, 5, 7])
        }
    };
    train[at] = vehicle(r, mark);
}

/// The records and the pairs of a train, to be written over these octets.
pub fn christening(train: &[Vehicle], marks: Vec<u8>) -> Case {
    let records = train.iter().flat_map(|vehicle| vehicle.record);
    let pairs = train.iter().map(|vehicle| vehicle.pair);
    let areas = vec![records.collect(), pairs.collect(), marks];
    Case::new(Call::Christen, areas, vec![])
}

/// Areas that do not fit each other.
fn misfit(r: &Random, case: &mut Case) {
    let [records, pairs, _] = &mut case.areas[..] else {
        return;
    };
    let len = records.len();
    match r.below(11) {
        0 | 1 => records.push(r.octet()),
        2 | 3 => records.truncate(len.saturating_sub(1)),
        4 => records.extend(r.octets(RECORD)),
        5 => records.truncate(len.saturating_sub(RECORD)),
        6 => pairs.push(r.octet()),
        7 => drop(pairs.pop()),
        8 => pairs.clear(),
        9 => {
            records.truncate(r.of(&[1, 55, 56]));
            pairs.clear();
        }
        _ => records.truncate(r.of(&[0, 1, 55, len / 2])),
    }
}

/// What the vehicles are, as octets of marks, and what is handed in, mostly right.
pub fn handed(r: &Random) -> (Vec<u8>, Case) {
    let len = match r.below(8) {
        0 => r.of(&[0, 1, 62, 63, 64, 64, 65, 128, 319]),
        1 | 2 => r.index(66),
        _ => r.within(1, 12) as usize,
    };
    let mut train = train(r, len);
    if len > 0 && r.one_in(4) {
        break_rule(r, &mut train);
    }
    let mut case = christening(&train, r.octets(63));
    if r.one_in(5) {
        misfit(r, &mut case);
    }
    (train.iter().map(|vehicle| vehicle.mark).collect(), case)
}

pub fn christen(r: &Random) -> Case {
    handed(r).1
}

/// A row, mostly one that there is.
pub fn property(r: &Random) -> Case {
    let row = match r.below(10) {
        0 => r.of(&[0, 133, 140, 153]),
        1 => r.below(161),
        2 => r.of(&[r.word(), r.beyond(r.within(1, 132))]),
        3 => r.within(141, 152),
        _ => r.within(1, 132),
    };
    let record = match r.one_in(2) {
        true => r.octets(RECORD),
        false => others(r).to_vec(),
    };
    let row = row & u64::from(u32::MAX);
    Case::new(Call::Property, vec![record], vec![row])
}

#[cfg(test)]
mod tests {
    use super::*;

    #[test]
    fn made_trains_are_what_they_are() {
        for number in 0..2_000 {
            let r = Random::of_case(14, number);
            let train = train(&r, r.within(1, 63) as usize);
            let case = christening(&train, vec![]);
            let mut marks = [0xEE; 63];
            let given = reference::christen(&case.areas[0], &case.areas[1], &mut marks);
            assert_eq!(given, Ok(train.len()));
            let wanted: Vec<u8> = train.iter().map(|vehicle| vehicle.mark).collect();
            assert_eq!(marks[..train.len()], wanted);
        }
    }
}
