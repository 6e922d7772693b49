//! C-20: what a driver's desk shows of the doors.

mod support;

use reference::{doors, resolve, Doors, Form, Refusal, Side, State};
use support::plain::{self, Code, List, Signal};
use support::{
    make, plant, refusal, widened, Random, EASE, HEAD, HEARD, SIGNAL_SIZE, SLOT, STAMP, STORE,
};

/// Octet 20 bits 4 and 5, as bit addresses, and as the weights that they have in it.
const LEFT: u64 = 8 * 19 + 4;
const RIGHT: u64 = 8 * 19 + 5;
const LOCKED: u8 = 0x08 | 0x04;

/// Marks of both sides in octet 3: ok.
const OK: u8 = 0x50;

/// A store in which nobody was heard.
const SILENT: [u8; STORE] = [0; STORE];

fn field(start: u64, width: u64, kind: u64, check: u64) -> Signal {
    Signal {
        start,
        width,
        kind,
        check,
        since: 1,
        limit: 5_000,
        replacement: 0,
    }
}

/// Both doors and nothing else: the left under octet 3 bits 0-1, the right under bits 2-3.
fn both() -> List {
    List {
        checks: vec![16, 18],
        signals: vec![field(LEFT, 1, 0, 1), field(RIGHT, 1, 0, 2)],
        ..List::default()
    }
}

/// These common signals and nothing else.
fn with(signals: &[(u64, u64)]) -> Vec<u8> {
    let signals = signals
        .iter()
        .map(|&(start, width)| field(start, width, 0, 0));
    List {
        signals: signals.collect(),
        ..List::default()
    }
    .octets()
}

/// An R3 of version 1 with these octets 3 and 20.
fn r3(octet_3: u8, octet_20: u8) -> [u8; 40] {
    let mut telegram = [0; 40];
    telegram[..3].copy_from_slice(&[0x13, 1, octet_3]);
    telegram[19] = octet_20;
    telegram
}

/// Vehicle 1 and those behind it, heard at 0 with these octets 3 and 20, or never.
fn heard(train: &[Option<(u8, u8)>]) -> Vec<u8> {
    let mut store = vec![0; STORE];
    for (vehicle, said) in (1..).zip(train) {
        if let &Some((octet_3, octet_20)) = said {
            plant(&mut store, vehicle, 1, 0, &r3(octet_3, octet_20));
        }
    }
    store
}

/// All 63 vehicles heard with both sides locked.
fn all_locked() -> Vec<u8> {
    heard(&[Some((OK, LOCKED)); 63])
}

/// A side as it is told plainly; its size is that of its set.
fn told(side: Side) -> plain::Side {
    let kept: Vec<u64> = (0..64).filter(|v| side.kept.set >> v & 1 == 1).collect();
    assert_eq!(side.kept.size as usize, kept.len());
    let state = match side.state {
        State::Locked => 0,
        State::Open => 1,
        State::Unknown => 2,
    };
    (state, kept)
}

/// Holds the summary, in both forms of the list, to what is told in the plainest way. Gives both sides, or the refusal.
fn held(
    list: &[u8],
    store: &[u8],
    now: u32,
    marks: &[u8],
    address: u64,
) -> Result<[plain::Side; 2], u8> {
    let wanted = plain::doors(list, SIGNAL_SIZE, store, now, marks, address);
    let sides = |doors: Doors| [doors.left, doors.right].map(told);
    let given = doors(list, Form::One, store, now, marks, address).map(sides);
    assert_eq!(given, wanted, "{marks:?} at {address}");
    if let Ok(counts) = plain::judge(list) {
        let wide = widened(list, counts.checks, &vec![[0x40, 0xC0]; counts.signals]);
        let in_form_2 = doors(&wide, Form::Two, store, now, marks, address).map(sides);
        assert_eq!(in_form_2, given);
    }
    wanted.map_err(|refusal| refusal.number)
}

/// Both doors, of so many coaches, at 5,000 ms.
fn coaches(store: &[u8], count: usize) -> [plain::Side; 2] {
    held(&both().octets(), store, 5_000, &vec![2; count], 66).unwrap()
}

fn side(state: u8, kept: &[u64]) -> plain::Side {
    (state, kept.to_vec())
}

#[test]
fn two_coaches() {
    let (fine, silent) = (Some((OK, LOCKED)), None);
    let open = |octet_20| Some((OK, octet_20));
    for (train, left, right) in [
        ([fine, fine], side(0, &[]), side(0, &[])),
        ([fine, open(0x04)], side(1, &[2]), side(0, &[])),
        ([fine, open(0x08)], side(0, &[]), side(1, &[2])),
        ([open(0), open(0)], side(1, &[1, 2]), side(1, &[1, 2])),
        ([fine, silent], side(2, &[2]), side(2, &[2])),
        ([silent, silent], side(2, &[1, 2]), side(2, &[1, 2])),
        // One open and one not heard: open, and both are in the set.
        ([open(0x08), silent], side(2, &[2]), side(1, &[1, 2])),
        ([silent, open(0x04)], side(1, &[1, 2]), side(2, &[1])),
    ] {
        assert_eq!(coaches(&heard(&train), 2), [left, right], "{train:?}");
    }
}

/// Each mark of each side, with each value: ok and forced are live, error and undefined are not.
#[test]
fn marks_of_a_side() {
    for (mark, value) in (0..4).flat_map(|mark| [0, 1].map(|value| (mark, value))) {
        let live = mark == 1 || mark == 2;
        let (state, kept) = match (live, value) {
            (true, 1) => (0, vec![]),
            (true, _) => (1, vec![1]),
            _ => (2, vec![1]),
        };
        let left = heard(&[Some((mark << 6 | 0x10, value << 3 | 0x04))]);
        assert_eq!(coaches(&left, 1), [(state, kept.clone()), side(0, &[])]);
        let right = heard(&[Some((0x40 | mark << 4, 0x08 | value << 2))]);
        assert_eq!(coaches(&right, 1), [side(0, &[]), (state, kept)]);
    }
}

/// What a vehicle can say of both sides: every mark and every value, or it was never heard.
fn every_way() -> Vec<Option<(u8, u8)>> {
    let marks = (0..16).map(|marks| marks << 4);
    let said = marks.flat_map(|octet_3| [0, 4, 8, 12].map(|octet_20| Some((octet_3, octet_20))));
    said.chain([None]).collect()
}

/// Two vehicles in every way, three in those ways in which both sides have the same mark.
#[test]
fn few_vehicles_in_every_way() {
    let every = every_way();
    let alike = |said: &&Option<(u8, u8)>| {
        said.is_none_or(|(octet_3, _)| matches!(octet_3, 0x00 | 0x50 | 0xA0))
    };
    let few: Vec<_> = every.iter().filter(alike).copied().collect();
    let mut met = [[0; 3]; 3];
    let mut count = |train: &[Option<(u8, u8)>]| {
        let [(left, _), (right, _)] = coaches(&heard(train), train.len());
        met[usize::from(left)][usize::from(right)] += 1;
    };
    for &first in &every {
        count(&[first]);
        every.iter().for_each(|&second| count(&[first, second]));
    }
    for (&first, &second) in few.iter().flat_map(|a| few.iter().map(move |b| (a, b))) {
        few.iter().for_each(|&third| count(&[first, second, third]));
    }
    assert!(met.as_flattened().iter().all(|&n| n > 20), "{met:?}");
}

/// In trains of every length, each vehicle alone that is open or was not heard; also one that the train does not have.
#[test]
fn one_holds_it_up() {
    let fine = all_locked();
    for count in 1..=63 {
        for vehicle in 1..=63 {
            let kept: Vec<u64> = (vehicle <= count)
                .then_some(vehicle as u64)
                .into_iter()
                .collect();
            let state = |holds_up: u8| if kept.is_empty() { 0 } else { holds_up };
            let mut store = fine.clone();
            plant(&mut store, vehicle, 1, 0, &r3(OK, 0x04));
            let left = (state(1), kept.clone());
            assert_eq!(coaches(&store, count), [left, side(0, &[])]);
            plant(&mut store, vehicle, 1, 0, &r3(OK, 0x08));
            let right = (state(1), kept.clone());
            assert_eq!(coaches(&store, count), [side(0, &[]), right]);
            plant(&mut store, vehicle, 0, 0, &r3(OK, LOCKED));
            let unheard = (state(2), kept.clone());
            assert_eq!(coaches(&store, count), [unheard.clone(), unheard]);
        }
    }
}

/// Sets of every size, of the first vehicles and of the last; all others are locked.
#[test]
fn sets_of_every_size() {
    for size in 0..=63 {
        let mut first = all_locked();
        let mut last = all_locked();
        for vehicle in 1..=size {
            plant(&mut first, vehicle, 1, 0, &r3(OK, 0x08));
            plant(&mut last, 64 - vehicle, 2, 0, &r3(OK, LOCKED));
        }
        let [left, right] = coaches(&first, 63);
        assert_eq!(left, side(0, &[]));
        assert_eq!(right.0, u8::from(size > 0));
        assert_eq!(right.1, (1..=size as u64).collect::<Vec<u64>>());
        let [left, right] = coaches(&last, 63);
        assert_eq!(left, right);
        assert_eq!(left.0, if size > 0 { 2 } else { 0 });
        assert_eq!(left.1, (64 - size as u64..=63).collect::<Vec<u64>>());
    }
}

/// Every bit of a telegram changed alone, of a vehicle that is locked on both sides: its two bits count, the marks, and those of the head that say
/// no R-telegram.
#[test]
fn each_bit_of_a_telegram() {
    for bit in 0..320 {
        let mut telegram = r3(OK, LOCKED);
        telegram[bit / 8] ^= 0x80 >> (bit % 8);
        let mut store = SILENT.to_vec();
        plant(&mut store, 1, 1, 0, &telegram);
        let wanted = match bit as u64 {
            LEFT => [side(1, &[1]), side(0, &[])],
            RIGHT => [side(0, &[]), side(1, &[1])],
            16 | 17 => [side(2, &[1]), side(0, &[])],
            18 | 19 => [side(0, &[]), side(2, &[1])],
            0..=5 => [side(2, &[1]), side(2, &[1])],
            // Also another type of R-telegram, and version 0, which is read as 1.
            _ => [side(0, &[]), side(0, &[])],
        };
        assert_eq!(coaches(&store, 1), wanted, "bit {bit}");
    }
}

/// The heard octet, the head and the age of a vehicle, and a version below that of a side.
#[test]
fn who_is_not_live() {
    let mut list = both();
    list.signals[1].since = 2;
    let list = list.octets();
    let fine = Ok([side(0, &[]), side(0, &[])]);
    let unknown = Ok([side(2, &[1]), side(2, &[1])]);
    let show = |heard: u8, head: u8, version: u8, now: u32| {
        let mut telegram = r3(OK, LOCKED);
        telegram[..2].copy_from_slice(&[head, version]);
        let mut store = SILENT.to_vec();
        plant(&mut store, 1, heard, 0, &telegram);
        held(&list, &store, now, &[0], 66)
    };
    for any in 0..=255 {
        let (heard, head) = (any == 1, matches!(any, 0x11..=0x13));
        let wanted = |live: bool| if live { &fine } else { &unknown };
        assert_eq!(&show(any, 0x13, 2, 0), wanted(heard), "heard octet {any}");
        assert_eq!(&show(1, any, 2, 0), wanted(head), "head {any}");
        let right = if any < 2 { side(2, &[1]) } else { side(0, &[]) };
        assert_eq!(show(1, 0x13, any, 0), Ok([side(0, &[]), right]));
    }
    assert_eq!(show(1, 0x13, 2, 5_000), fine);
    assert_eq!(show(1, 0x13, 2, 5_001), unknown);
    assert_eq!(show(1, 0x13, 2, u32::MAX), unknown);
}

/// A value that is not live is its replacement: 1 does not make it locked, nor 0 open.
#[test]
fn replacements_say_nothing() {
    for replacement in [0, 1] {
        let mut list = both();
        list.signals
            .iter_mut()
            .for_each(|s| s.replacement = replacement);
        let shown = held(&list.octets(), &SILENT, 0, &[0, 0], 66);
        assert_eq!(shown, Ok([side(2, &[1, 2]), side(2, &[1, 2])]));
    }
}

/// Where a door signal knows one code alone, the other is not live.
#[test]
fn known_codes_of_a_door() {
    let known = [None, Some((0, 0)), Some((1, 1)), Some((0, 1))];
    let state = |known: Option<(u64, u64)>, value: u64| match known {
        Some((low, high)) if !(low..=high).contains(&value) => 2,
        _ => 1 - value as u8,
    };
    for (left, right) in known.iter().flat_map(|l| known.iter().map(move |r| (l, r))) {
        let mut list = both();
        for (signal, known) in [(0, left), (1, right)] {
            let code = known.map(|(low, high)| Code { signal, low, high });
            list.codes.extend(code);
        }
        for octet_20 in [0, 4, 8, 12] {
            let store = heard(&[Some((OK, octet_20))]);
            let shown = held(&list.octets(), &store, 0, &[0], 66).unwrap();
            let [l, r] = [octet_20 >> 3 & 1, octet_20 >> 2 & 1].map(u64::from);
            let wanted = [state(*left, l), state(*right, r)];
            assert_eq!(shown.map(|side| side.0), wanted);
        }
    }
}

/// Whom an address narrows it to, in a train in which all but one are held up.
#[test]
fn addresses() {
    let marks = [5, 2, 18, 12, 0, 6, 2];
    for fine in 1..=7 {
        let mut train = [
            Some((OK, 0x00)),
            None,
            Some((0x00, LOCKED)),
            None,
            None,
            None,
            None,
        ];
        train[fine - 1] = Some((0xA0, LOCKED));
        let store = heard(&train);
        let far = [256 + 66, 1 << 32 | 67, u64::MAX];
        for address in (0..=300).chain(far) {
            let shown = held(&both().octets(), &store, 0, &marks, address);
            let asked = resolve(&marks, address).map_err(|refusal| refusal.number);
            assert_eq!(shown.as_ref().err(), asked.as_ref().err());
            if let (Ok(shown), Ok(asked)) = (shown, asked) {
                let locked = asked.set == 1 << fine;
                assert!(shown.iter().all(|side| (side.0 == 0) == locked));
            }
        }
    }
}

/// "An address may narrow it": the sides of all are those of each vehicle, put together.
#[test]
fn each_vehicle_alone() {
    let mut r = Random::new(20);
    let every = every_way();
    for _ in 0..200 / EASE {
        let train: Vec<_> = (0..r.within(1, 63)).map(|_| r.of(&every)).collect();
        let (list, store, marks) = (both().octets(), heard(&train), vec![0; train.len()]);
        let alone = |v| held(&list, &store, 0, &marks, v).unwrap();
        let alone: Vec<_> = (1..=train.len() as u64).map(alone).collect();
        for (n, whole) in held(&list, &store, 0, &marks, 66)
            .unwrap()
            .iter()
            .enumerate()
        {
            let states: Vec<u8> = alone.iter().map(|sides| sides[n].0).collect();
            let state = [1, 2].into_iter().find(|state| states.contains(state));
            assert_eq!(whole.0, state.unwrap_or(0));
            let kept: Vec<u64> = alone.iter().flat_map(|sides| sides[n].1.clone()).collect();
            assert_eq!(whole.1, kept);
        }
    }
}

/// "The list must hold both bits as common signals of width 1."
#[test]
fn what_is_a_door() {
    let store = all_locked();
    let show = |list: &[u8]| held(list, &store, 0, &[0, 0], 66);
    let fields = || (150..=162).flat_map(|start| [1, 2, 3].map(|width| (start, width)));
    for first in fields() {
        assert_eq!(show(&with(&[first])), Err(35));
        for second in fields().filter(|second| first.0 + first.1 <= second.0) {
            let shown = show(&with(&[first, second]));
            let there = [first, second] == [(LEFT, 1), (RIGHT, 1)];
            assert_eq!(shown.err(), (!there).then_some(35), "{first:?} {second:?}");
        }
    }
    // Among others, and a field over both.
    assert!(show(&with(&[(16, 64), (LEFT, 1), (RIGHT, 1), (158, 64)])).is_ok());
    assert_eq!(show(&with(&[(150, 6), (LEFT, 2), (158, 1)])), Err(35));
    assert_eq!(show(&with(&[(100, 64)])), Err(35));
    assert_eq!(show(&[0; 8]), Err(35));
}

/// No signal of R1 or R2 is a door, wherever it starts: the same bits of octets 41-128, and 20 octets into them.
#[test]
fn no_door_of_one_type() {
    let store = all_locked();
    for kind in [1, 2] {
        for before in [304, 320, 512] {
            let of_type = [LEFT, RIGHT].map(|start| field(start + before, 1, kind, 0));
            for common in [&[][..], &[field(LEFT, 1, 0, 0)], &[field(RIGHT, 1, 0, 0)]] {
                let signals = [common, &of_type[..]].concat();
                let list = List {
                    signals,
                    ..List::default()
                };
                assert_eq!(held(&list.octets(), &store, 0, &[0], 66), Err(35));
            }
        }
    }
}

/// What is asked is refused, and in both forms alike.
fn refused(list: &[u8], store: &[u8], marks: &[u8], address: u64) -> Refusal {
    let shown = doors(list, Form::One, store, 0, marks, address);
    let number = held(list, store, 0, marks, address).unwrap_err();
    let refusal = shown.unwrap_err();
    assert_eq!(refusal.number, number);
    refusal
}

/// "35 a door signal missing from the list; after 1-5 and before 17-20." What is wrong with the list carries its place, nothing else anything.
#[test]
fn of_two_faults() {
    let (list, other) = (both().octets(), with(&[(LEFT, 1), (158, 1)]));
    let short = &SILENT[1..];
    let more = [&other[..], &[0]].concat();
    let cut = &list[..list.len() - 1];
    assert_eq!(refused(&[], &[], &[], 0), refusal(1, 0));
    assert_eq!(refused(&[0, 65], short, &[], 0), refusal(2, 0));
    assert_eq!(refused(&[0, 1, 0, 17], short, &[1, 1], 0), refusal(3, 2));
    assert_eq!(refused(&more, short, &[], 0), refusal(4, 40));
    assert_eq!(refused(cut, &SILENT, &[0], 66), refusal(1, 42));
    for marks in [&[][..], &[0; 64], &[1, 1], &[8], &[0]] {
        for address in [0, 64, 66] {
            assert_eq!(refused(&list, short, marks, address), refusal(5, 0));
            assert_eq!(refused(&other, short, marks, address), refusal(5, 0));
            assert_eq!(refused(&other, &SILENT, marks, address), refusal(35, 0));
        }
    }
    for len in [0, 1, STORE - 1, STORE + 1, 8_379] {
        assert_eq!(refused(&other, &vec![0; len], &[], 0), refusal(5, 0));
    }
}

#[test]
fn refused_by_the_train() {
    for (marks, address, number) in [
        (&[][..], 0, 17),
        (&[1; 64], 0, 17),
        (&[1, 1], 0, 18),
        (&[8], 64, 18),
        (&[0], 68, 19),
        (&[0], 64, 20),
        (&[0], 2, 20),
    ] {
        let given = refused(&both().octets(), &SILENT, marks, address);
        assert_eq!(given, refusal(number, 0), "{marks:?} at {address}");
    }
}

/// A made list with both doors in it, under any check of common signals or none, or nearly so.
fn made_list(r: &mut Random) -> List {
    let mut list = make::list(r, false);
    // The check that would lie over them goes; no other signal has a check, since those behind it have other numbers.
    list.checks.retain(|&check| check != LEFT);
    list.signals.iter_mut().for_each(|s| s.check = 0);
    list.signals
        .retain(|s| s.start + s.width <= LEFT || s.start > RIGHT);
    (list.codes, list.routes) = (vec![], vec![]);
    let at = list.signals.partition_point(|s| s.start < LEFT);
    let common = list.checks.partition_point(|&check| check < 320) as u64;
    for (signal, start) in [(at, LEFT), (at + 1, RIGHT)] {
        let mut door = field(start, 1, 0, r.below(common + 1));
        door.since = r.of(&[1, 1, 1, 2, 5]);
        door.limit = r.of(&[0, 100, 5_000, 600_000]);
        door.replacement = r.below(2);
        list.signals.insert(signal, door);
        if r.one_in(4) {
            let (low, high) = r.of(&[(0, 0), (1, 1), (0, 1)]);
            let signal = signal as u64;
            list.codes.push(Code { signal, low, high });
        }
    }
    match r.below(12) {
        0 => list.signals[at].start -= 1,
        1 => list.signals[at + 1].start += 1,
        2 => list.signals[at + 1].width = 2,
        3 => list.signals.truncate(at + 1),
        _ => {}
    }
    list
}

/// Marks of a consist: mostly good.
fn made_marks(r: &mut Random) -> Vec<u8> {
    let length = r.of(&[0, 1, 2, 3, 5, 9, 20, 62, 63, 64]);
    let mut marks: Vec<u8> = (0..length)
        .map(|_| r.of(&[0, 2, 2, 4, 12, 14, 18, 0xE2]))
        .collect();
    if length > 0 {
        let at = r.below(length) as usize;
        marks[at] = r.of(&[1, 5, 5, 7, 8, 0]);
        if r.one_in(8) {
            let other = r.below(length) as usize;
            marks[other] = r.of(&[1, 9]);
        }
    }
    marks
}

/// Most of the vehicles are locked on both sides: where all are as made, one is open wherever there are many.
fn lock_most(r: &mut Random, store: &mut [u8], now: u32) {
    let often = r.of(&[1, 4, 40, 1_000]);
    for slot in store.chunks_mut(SLOT).filter(|_| !r.one_in(often)) {
        slot[HEARD] = 1;
        slot[STAMP].copy_from_slice(&now.to_be_bytes());
        slot[HEAD..].fill(0x55);
        slot[HEAD..][..2].copy_from_slice(&[0x12, 255]);
        slot[HEAD + 19] |= LOCKED;
    }
}

/// An address: mostly that of all.
fn made_address(r: &mut Random) -> u64 {
    let other = r.of(&[67, 70, 64, 65, 92, 1, 2, 63, 0, 68, 256 + 66]);
    r.of(&[66, other, other])
}

#[test]
fn made_trains() {
    let mut r = Random::new(201);
    let (mut refused, mut states) = ([0; 36], [0; 3]);
    for _ in 0..20_000 / EASE {
        let list = made_list(&mut r).octets();
        let now = r.of(&[0, 50, 5_000, 4_000_000_000]);
        let mut store = make::store(&mut r, now);
        lock_most(&mut r, &mut store, now);
        if r.one_in(20) {
            store.pop();
        }
        let marks = made_marks(&mut r);
        let address = made_address(&mut r);
        match held(&list, &store, now, &marks, address) {
            Ok(sides) => sides
                .iter()
                .for_each(|side| states[usize::from(side.0)] += 1),
            Err(number) => refused[usize::from(number)] += 1,
        }
    }
    for number in [5, 17, 18, 19, 20, 35] {
        assert!(refused[number] > 200 / EASE, "{number}: {refused:?}");
    }
    assert!(states.iter().all(|&n| n > 1_000 / EASE), "{states:?}");
}
