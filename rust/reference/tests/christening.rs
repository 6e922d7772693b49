//! C-14: the consist from christening records, and their properties by the rows of table E.1.

mod support;

use reference::{christen, property, resolve, Level, Members, Property};
use support::{plain, refusal, Random, EASE};

type Record = [u8; 56];

/// The places that marks are taken from, octet and bit.
const SEVEN: [(u8, u8); 7] = [
    (24, 0),
    (24, 1),
    (50, 0),
    (50, 1),
    (51, 0),
    (51, 3),
    (51, 4),
];

/// A record with these places set, and nothing else.
fn record(places: &[(u8, u8)]) -> Record {
    let mut record = [0; 56];
    for &(octet, bit) in places {
        record[usize::from(octet) - 1] |= 128 >> bit;
    }
    record
}

/// The octet of marks that a vehicle has.
fn mark(vehicle: [bool; 5]) -> u8 {
    let worth = [1, 2, 4, 8, 16].into_iter().zip(vehicle);
    worth.map(|(worth, is)| worth * u8::from(is)).sum()
}

/// Holds what is built to what is told in the plainest way, and every octet of the marks to what it was or should be.
fn held(records: &[u8], pairs: &[u8]) -> Result<Vec<u8>, u8> {
    let wanted = plain::christened(records, pairs);
    let wanted = wanted.map(|train| train.into_iter().map(mark).collect::<Vec<u8>>());
    let mut marks: [u8; 63] = std::array::from_fn(|at| 0xA0 ^ at as u8);
    let mut after = marks;
    if let Ok(train) = &wanted {
        after[..train.len()].copy_from_slice(train);
    }
    let given = christen(records, pairs, &mut marks);
    let count = wanted.as_ref().map(|train| train.len());
    assert_eq!(given, count.map_err(|&number| refusal(number, 0)));
    assert_eq!(marks, after, "{pairs:?}");
    wanted
}

/// So many vehicles of a record, with these pairs where they are not 0.
fn train(record: &Record, count: usize, pairs: &[(usize, u8)]) -> Result<Vec<u8>, u8> {
    let mut all = vec![0; count];
    pairs.iter().for_each(|&(at, pair)| all[at] = pair);
    held(&record.repeat(count), &all)
}

#[test]
fn a_train_is_christened() {
    let records = [
        record(&[(24, 0)]),
        record(&[(50, 1)]),
        record(&[(51, 4)]),
        record(&[(24, 1), (50, 0)]),
        record(&[(22, 0), (54, 1)]),
    ];
    let mut marks = [0xEE; 63];
    let given = christen(records.as_flattened(), &[1, 0, 0, 8, 0], &mut marks);
    assert_eq!(given, Ok(5));
    assert_eq!(marks[..5], [1 | 4, 2, 2 | 16, 2 | 4 | 8, 0]);
    assert_eq!(marks[5..], [0xEE; 58]);
}

/// Each bit of a record alone, and each missing alone, with every bit of a pair.
#[test]
fn each_bit_of_a_record() {
    for address in 0..8 * 56 {
        let (octet, bit) = ((address / 8 + 1) as u8, (address % 8) as u8);
        let alone = record(&[(octet, bit)]);
        let pairs = (0..8).map(|bit| 1 << bit).chain([0, 9, 0xF6, 0xFF]);
        for pair in pairs {
            let _ = held(&alone, &[pair]);
            let _ = held(&alone.map(|octet| !octet), &[pair]);
        }
        let counts = SEVEN.contains(&(octet, bit));
        assert_eq!(held(&alone, &[0]) != Ok(vec![0]), counts);
    }
}

/// The seven places in every way, with every pair, and with all other bits set or not.
#[test]
fn the_seven_places() {
    for set in 0..128 {
        let places = SEVEN.iter().zip(0..7).filter(|(_, n)| set >> n & 1 == 1);
        let places: Vec<(u8, u8)> = places.map(|(&place, _)| place).collect();
        let alone = record(&places);
        let others = record(&SEVEN).map(|octet| !octet);
        let crowded: Record = std::array::from_fn(|at| alone[at] | others[at]);
        for pair in 0..=255 {
            assert_eq!(held(&alone, &[pair]), held(&crowded, &[pair]));
        }
    }
}

#[test]
fn what_a_place_says() {
    let of = |places: &[(u8, u8)]| held(&record(places), &[0]).unwrap()[0];
    for place in [(50, 0), (50, 1), (51, 0), (51, 3)] {
        assert_eq!(of(&[place]), 2, "{place:?}");
    }
    assert_eq!(of(&[(51, 4)]), 16 | 2);
    for place in [(24, 0), (24, 1)] {
        assert_eq!(of(&[place]), 4, "{place:?}");
    }
    for beside in [
        (23, 7),
        (24, 2),
        (24, 7),
        (49, 7),
        (50, 2),
        (51, 1),
        (51, 2),
        (51, 5),
        (52, 0),
    ] {
        assert_eq!(of(&[beside]), 0, "{beside:?}");
    }
    // The same bits of the octets beside, and the bits counted from the other end.
    for other in [(23, 0), (25, 1), (49, 0), (52, 3), (24, 6), (50, 7)] {
        assert_eq!(of(&[other]), 0, "{other:?}");
    }
}

#[test]
fn trains_of_every_length() {
    let car = record(&[(51, 4)]);
    for count in 0..=130 {
        let wanted = match count {
            1..=63 => Ok(vec![18; count]),
            _ => Err(17),
        };
        assert_eq!(train(&car, count, &[]), wanted, "{count} vehicles");
    }
    for count in [255, 256, 257, 319, 320] {
        assert_eq!(train(&car, count, &[]), Err(17), "{count} vehicles");
    }
}

/// "31 record area not a whole number of records, or not as many pairs of marks as records".
#[test]
fn areas_that_do_not_fit() {
    let ones = [0xFF; 4 * 56 + 2];
    for octets in 0..=ones.len() {
        for pairs in 0..=6 {
            let fits = octets == 56 * pairs;
            let refused = held(&ones[..octets], &vec![0; pairs]) == Err(31);
            assert_eq!(refused, !fits, "{octets} octets, {pairs} pairs");
        }
    }
    // As many pairs, once they are cut to fewer bits.
    assert_eq!(held(&ones[..56], &[0; 257]), Err(31));
    assert_eq!(held(&ones[..56], &[0; 65_537]), Err(31));
    assert_eq!(held(&ones[..0], &[0; 256]), Err(31));
}

/// "At most one is leading; led needs tractive and not leading."
#[test]
fn what_breaks_the_rule() {
    let (coach, engine) = (record(&[(50, 0)]), record(&[(24, 0), (24, 1)]));
    for count in [1, 2, 62, 63] {
        for at in 0..count {
            assert!(train(&coach, count, &[(at, 1)]).is_ok());
            assert!(train(&engine, count, &[(at, 8)]).is_ok());
            assert_eq!(train(&coach, count, &[(at, 8)]), Err(18));
            assert_eq!(train(&coach, count, &[(at, 9)]), Err(18));
            assert_eq!(train(&engine, count, &[(at, 9)]), Err(18));
            for other in 0..at {
                let two = [(at, 1), (other, 1)];
                assert_eq!(train(&coach, count, &two), Err(18));
                let both = train(&engine, count, &[(at, 1), (other, 8)]).unwrap();
                assert_eq!((both[at], both[other]), (1 | 4, 4 | 8));
            }
        }
    }
    assert!(train(&engine, 63, &[]).is_ok());
    let all_led: Vec<(usize, u8)> = (0..63).map(|at| (at, 8)).collect();
    assert_eq!(train(&engine, 63, &all_led), Ok(vec![12; 63]));
    let all_lead = all_led.iter().map(|&(at, _)| (at, 1));
    let all_lead: Vec<(usize, u8)> = all_lead.collect();
    assert_eq!(train(&engine, 63, &all_lead), Err(18));
}

/// "31 comes first, then 17 and 18."
#[test]
fn of_two_faults() {
    let coach = record(&[(50, 0)]);
    // No record and a pair, a record and no pair, neither.
    assert_eq!(held(&[], &[0]), Err(31));
    assert_eq!(held(&coach, &[]), Err(31));
    assert_eq!(held(&[], &[]), Err(17));
    // 64 of which two lead, or one is led without traction; 63 of these.
    for pairs in [&[(0, 1), (63, 1)][..], &[(0, 8)], &[(5, 9)]] {
        assert_eq!(train(&coach, 64, pairs), Err(17));
    }
    assert_eq!(train(&coach, 63, &[(0, 1), (62, 1)]), Err(18));
    assert_eq!(train(&coach, 63, &[(62, 8)]), Err(18));
    // A record too many, or an octet too many or too few, and two that lead.
    for octets in [3 * 56, 56, 2 * 56 + 1, 2 * 56 - 1] {
        assert_eq!(held(&coach.repeat(3)[..octets], &[1, 1]), Err(31));
        assert_eq!(held(&coach.repeat(3)[..octets], &[8, 0]), Err(31));
    }
    // A part of a record and no pair: no vehicle, but 31 comes first.
    for octets in [1, 55] {
        assert_eq!(held(&coach[..octets], &[]), Err(31));
        assert_eq!(held(&coach[..octets], &[0]), Err(31));
    }
    // Above 63, and not as many pairs, or an octet too many.
    assert_eq!(held(&coach.repeat(64), &[0; 63]), Err(31));
    assert_eq!(held(&coach.repeat(64), &[0; 65]), Err(31));
    assert_eq!(held(&coach.repeat(65)[..64 * 56 + 1], &[1; 64]), Err(31));
}

/// Records and pairs that may be handed in: mostly good.
fn made(r: &mut Random) -> (Vec<u8>, Vec<u8>) {
    let count = r.of(&[0, 1, 2, 5, 20, 62, 63, 64, 65]);
    let mut records = vec![];
    let mut pairs = vec![];
    let good = !r.one_in(4);
    let leads = r.below(count as u64 + 1) as usize;
    for at in 0..count {
        let record: Record = match r.below(3) {
            0 => r.octets(56).try_into().unwrap(),
            1 => record(&[r.of(&SEVEN), r.of(&SEVEN)]),
            _ => record(&[r.of(&SEVEN), (r.within(1, 56) as u8, r.below(8) as u8)]),
        };
        let tractive = plain::described(&record, 0)[2];
        let pair = match r.below(10) {
            0 if !good => r.word() as u8,
            _ if at == leads => 1,
            1..=5 if tractive => 8,
            _ => 0,
        };
        records.extend(record);
        pairs.push(pair | r.of(&[0, 0xF6, 0x40]));
    }
    (records, pairs)
}

#[test]
fn made_trains() {
    let mut r = Random::new(14);
    let mut met = [0; 32];
    for _ in 0..20_000 / EASE {
        let (mut records, mut pairs) = made(&mut r);
        match r.below(16) {
            0 => records.push(0),
            1 => drop(records.pop()),
            2 => pairs.push(0),
            3 => drop(pairs.pop()),
            _ => {}
        }
        met[held(&records, &pairs).map_or_else(usize::from, |_| 0)] += 1;
    }
    for number in [0, 17, 18, 31] {
        assert!(met[number] > 1_000 / EASE, "{met:?}");
    }
}

/// The marks that come out resolve to the vehicles that are so by their records and pairs.
#[test]
fn marks_resolve() {
    let mut r = Random::new(141);
    for _ in 0..2_000 / EASE {
        let (records, pairs) = made(&mut r);
        let mut marks = [0xFF; 63];
        let (Ok(count), Ok(train)) = (
            christen(&records, &pairs, &mut marks),
            plain::christened(&records, &pairs),
        ) else {
            continue;
        };
        for address in (0..=100).chain([256 + 66, u64::MAX]) {
            let wanted = resolved(&train, address);
            assert_eq!(resolve(&marks[..count], address), wanted, "{address}");
        }
    }
}

fn resolved(train: &[[bool; 5]], address: u64) -> Result<Members, reference::Refusal> {
    let meets = |number: u64, vehicle: &[bool; 5]| match address {
        1..=63 => number == address,
        64 => vehicle[0],
        65 => vehicle[3],
        66 => true,
        67 => vehicle[1],
        70 => vehicle[2],
        92 => vehicle[4],
        _ => false,
    };
    if !matches!(address, 1..=67 | 70 | 92) {
        return Err(refusal(19, 0));
    }
    let met = (1..).zip(train).filter(|&(n, vehicle)| meets(n, vehicle));
    let set = met.map(|(number, _)| 1 << number).sum::<u64>();
    match set {
        0 => Err(refusal(20, 0)),
        _ => Ok(Members {
            set,
            size: set.count_ones(),
        }),
    }
}

/// Every number that a row can have or not.
#[test]
fn every_row() {
    let record: Record = std::array::from_fn(|at| (37 * at + 11) as u8);
    let mut rows = 0;
    for number in (0..=70_000).chain((17..32).flat_map(|power| {
        let power = 1u32 << power;
        [power, power + 1, power + 142]
    })) {
        let wanted = plain::row(number).map(|(level, octet, bit)| Property {
            level,
            octet,
            bit,
            holds: plain::at(&record, octet, bit),
        });
        assert_eq!(property(&record, number), wanted, "row {number}");
        rows += usize::from(wanted.is_some());
    }
    assert_eq!(rows, 144);
    assert_eq!(property(&record, u32::MAX), None);
    for none in [0, 133, 140, 153] {
        assert_eq!(property(&record, none), None);
    }
}

/// A row holds by its own bit and by no other: each bit alone, and each missing alone.
#[test]
fn a_row_reads_its_place() {
    for address in 0..8 * 56 {
        let (octet, bit) = ((address / 8 + 1) as u8, (address % 8) as u8);
        let alone = record(&[(octet, bit)]);
        let others = alone.map(|octet| !octet);
        for number in (1..=132).chain(141..=152) {
            let (set, unset) = (property(&alone, number), property(&others, number));
            let (set, unset) = (set.unwrap(), unset.unwrap());
            let here = (set.octet, set.bit) == (octet, bit);
            assert_eq!((set.holds, unset.holds), (here, !here), "row {number}");
        }
    }
}

/// The rows at the places that marks are taken from, the one that is printed twice, and the last.
#[test]
fn rows_behind_the_marks() {
    for (number, level, octet, bit) in [
        (38, Level::Gateway, 24, 0),
        (39, Level::Gateway, 24, 1),
        (1, Level::Vehicle, 50, 0),
        (2, Level::Vehicle, 50, 1),
        (9, Level::Vehicle, 51, 0),
        (12, Level::Vehicle, 51, 3),
        (13, Level::Vehicle, 51, 4),
        (142, Level::Gateway, 23, 7),
        (152, Level::Gateway, 35, 5),
    ] {
        let holds = true;
        let wanted = Property {
            level,
            octet,
            bit,
            holds,
        };
        assert_eq!(property(&record(&[(octet, bit)]), number), Some(wanted));
    }
}

/// "no two rows of one level share a place": as they are told.
#[test]
fn no_two_rows_share_a_place() {
    let rows = (0..1_000).filter_map(|number| property(&[0; 56], number));
    let mut places: Vec<(u8, u8, u8)> = rows
        .map(|row| (row.level as u8, row.octet, row.bit))
        .collect();
    assert_eq!(places.len(), 144);
    places.sort_unstable();
    places.dedup();
    assert_eq!(places.len(), 144);
    let octets = places.iter().map(|&(level, octet, _)| (level, octet));
    let [gateway, vehicle] = [0, 1].map(|of| octets.clone().filter(move |&(l, _)| l == of));
    assert!(gateway
        .map(|(_, octet)| octet)
        .all(|o| (22..=35).contains(&o)));
    assert!(vehicle
        .map(|(_, octet)| octet)
        .all(|o| (50..=54).contains(&o)));
}
