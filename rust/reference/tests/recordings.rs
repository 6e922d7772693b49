//! C-21: a supplier's recordings of marshalling, checked step by step.

mod support;

use reference::{check_step, judge, marshal, Finding, Form, Place, Refusal};
use support::plain::{self, Code, Found, List, Route, Signal, Step};
use support::{make, plant, r1, refusal, widened, Random, EASE, L, SIGNAL_SIZE, SLOT, STORE};

/// A store in which nobody was heard.
const SILENT: [u8; STORE] = [0; STORE];

/// A signal of R1 with no check.
fn signal(start: u64, width: u64, since: u64, replacement: u64) -> Signal {
    Signal {
        start,
        width,
        kind: 1,
        check: 0,
        since,
        limit: 5_000,
        replacement,
    }
}

/// A route of vehicle 1.
fn route(signal: u64, start: u64) -> Route {
    Route {
        signal,
        vehicle: 1,
        zero: 0,
        start,
    }
}

/// Two signals of four bits in octet 54, the second newer than the telegram; to bits 0-3 of the first octet and of the second.
fn two_routes() -> List {
    List {
        signals: vec![signal(424, 4, 1, 0), signal(428, 4, 2, 0)],
        routes: vec![route(0, 0), route(1, 8)],
        ..List::default()
    }
}

/// Vehicle 1 heard at 0 with these octets 41 and 54.
fn heard(octet_41: u8, octet_54: u8) -> Vec<u8> {
    let mut store = SILENT.to_vec();
    plant(&mut store, 1, 1, 0, &r1(octet_41, octet_54));
    store
}

fn step(store: &[u8], clock: u32, before: &[u8], after: &[u8]) -> Step {
    Step {
        store: store.to_vec(),
        clock,
        before: before.to_vec(),
        after: after.to_vec(),
    }
}

/// A finding as it is told plainly.
fn told(finding: Finding) -> Found {
    let Finding::Wrong(wrong) = finding else {
        return None;
    };
    assert!(wrong.bit < 8);
    let place = match wrong.place {
        Place::InRoute { route, reason } => Some((route, reason)),
        Place::Outside => None,
    };
    Some((8 * wrong.octet + usize::from(wrong.bit), place))
}

/// Checks a step in a form.
fn asked(
    list: &[u8],
    form: Form,
    steps: usize,
    last: &[u8],
    step: &Step,
) -> Result<Found, Refusal> {
    let (store, before, after) = (&step.store, &step.before, &step.after);
    check_step(list, form, steps, last, store, step.clock, before, after).map(told)
}

/// Holds a step, in both forms of the list, to what is told in the plainest way.
fn held(list: &[u8], steps: usize, last: &[u8], step: &Step) -> Result<Found, Refusal> {
    let given = asked(list, Form::One, steps, last, step);
    let wanted = plain::check_step(list, SIGNAL_SIZE, steps, last, step);
    assert_eq!(given, wanted, "{steps} steps, {last:?}, {:?}", step.after);
    if let Ok(counts) = plain::judge(list) {
        let wide = widened(list, counts.checks, &vec![[0x40, 0xC0]; counts.signals]);
        assert_eq!(asked(&wide, Form::Two, steps, last, step), given);
    }
    given
}

/// What our rules make of these data.
fn ours(list: &[u8], store: &[u8], clock: u32, before: &[u8]) -> Vec<u8> {
    let mut data = before.to_vec();
    marshal(list, Form::One, store, clock, &mut data).unwrap();
    data
}

/// So many octets that are not alike.
fn any_data(len: usize) -> Vec<u8> {
    Random::new(21).octets(len)
}

fn flip(data: &mut [u8], address: usize) {
    data[address / 8] ^= 0x80 >> (address % 8);
}

/// Under two routes, from AB CD, of which our rules make 4B 0D.
#[test]
fn steps_of_two_routes() {
    let list = two_routes().octets();
    let first = |after: [u8; 2]| {
        held(
            &list,
            0,
            &[],
            &step(&heard(0, 0x45), 0, &[0xAB, 0xCD], &after),
        )
    };
    assert_eq!(first([0x4B, 0x0D]), Ok(None));
    for (after, address, place) in [
        ([0x5B, 0x0D], 3, Some((0, 0))),
        ([0x4B, 0x1D], 11, Some((1, 5))),
        ([0x4A, 0x0D], 7, None),
        ([0x4B, 0x0C], 15, None),
        // Of two or three wrong bits, the first.
        ([0x4A, 0x1D], 7, None),
        ([0x5A, 0x1C], 3, Some((0, 0))),
        // Not marshalled at all.
        ([0xAB, 0xCD], 0, Some((0, 0))),
    ] {
        assert_eq!(first(after), Ok(Some((address, place))), "{after:02X?}");
    }
    // Too old, so that ours is the replacement.
    let late = step(&heard(0, 0x45), 5_001, &[0xAB, 0xCD], &[0x4B, 0x0D]);
    assert_eq!(held(&list, 0, &[], &late), Ok(Some((1, Some((0, 3))))));
}

/// L from every octet to every octet, live and replaced: the first bit in which two octets differ, and whether it is one of the first four.
#[test]
fn every_octet_before_and_after() {
    for (store, value, reason) in [(heard(0x10, 0x60), 0x60, 0), (SILENT.to_vec(), 0, 2)] {
        for before in (0..=255u8).step_by(EASE.min(5)) {
            for after in 0..=255u8 {
                let found = held(&L, 0, &[], &step(&store, 0, &[before], &[after]));
                let wrong = (value | before & 15) ^ after;
                let wanted = (wrong != 0).then(|| {
                    let address = wrong.leading_zeros() as usize;
                    (address, (address < 4).then_some((0, reason)))
                });
                assert_eq!(found, Ok(wanted));
            }
        }
    }
}

/// Routes side by side, with a gap of one bit, with one of more than an octet, and over nine octets; a last one that ends inside an octet, with an
/// octet, or with the last bit that a route may have.
fn laid_out() -> Vec<List> {
    let signals = vec![
        signal(320, 1, 1, 1),
        signal(330, 64, 1, 0xA1B2_C3D4_E5F6),
        signal(400, 7, 2, 0x55),
    ];
    let routes = [
        &[(0, 3), (0, 4), (2, 5), (0, 13), (0, 40), (1, 41)][..],
        &[(1, 0), (1, 64), (0, 128), (2, 129)],
        &[(2, 1), (0, 9), (1, 100), (2, 2_041)],
        &[(0, 0), (0, 2_047)],
        &[(0, 2_046)],
        &[],
    ];
    let list = |routes: &&[(u64, u64)]| List {
        signals: signals.clone(),
        routes: routes.iter().map(|&(s, start)| route(s, start)).collect(),
        ..List::default()
    };
    routes.iter().map(list).collect()
}

/// A store in which vehicle 1 was heard at 0 with an R1 of these octets.
fn filled(octet: u8) -> Vec<u8> {
    let mut telegram = [octet; 128];
    telegram[..2].copy_from_slice(&[0x11, 1]);
    let mut store = SILENT.to_vec();
    plant(&mut store, 1, 1, 0, &telegram);
    store
}

/// The octets that the routes of a list take.
fn needed(list: &List) -> usize {
    let end = |r: &Route| r.start + list.signals[r.signal as usize].width;
    list.routes.last().map_or(0, end).div_ceil(8) as usize
}

/// Every bit of the data alone: in a route, between two, before and behind them, and behind all that a route may reach.
#[test]
fn each_bit_alone() {
    let (mut inside, mut outside) = (0, 0);
    for (list, len) in laid_out()
        .iter()
        .flat_map(|l| [0, 1, 3, 256, 300].map(|len| (l, len)))
    {
        let (octets, len) = (list.octets(), needed(list).max(len));
        let (store, before) = (filled(0x96), vec![0x5A; len]);
        let right = ours(&octets, &store, 0, &before);
        let mut done = step(&store, 0, &before, &right);
        assert_eq!(held(&octets, 0, &[], &done), Ok(None));
        for address in (0..8 * len).step_by(EASE.min(7)) {
            flip(&mut done.after, address);
            let found = held(&octets, 1, &before, &done);
            let Ok(Some((at, place))) = found else {
                panic!("bit {address}: {found:?}");
            };
            assert_eq!(at, address);
            *(if place.is_some() {
                &mut inside
            } else {
                &mut outside
            }) += 1;
            flip(&mut done.after, address);
        }
    }
    assert!(
        inside > 700 / EASE && outside > 10_000 / EASE,
        "{inside} {outside}"
    );
}

/// Of every two wrong bits the first is named, and of any number of them.
#[test]
fn each_pair_of_bits() {
    let list = &laid_out()[0];
    let (octets, store) = (list.octets(), filled(0x69));
    let before = vec![0xC3; needed(list)];
    let right = ours(&octets, &store, 0, &before);
    for first in (0..8 * right.len()).step_by(EASE.min(5)) {
        let mut done = step(&store, 0, &before, &right);
        flip(&mut done.after, first);
        let alone = held(&octets, 0, &[], &done);
        for second in first + 1..8 * right.len() {
            flip(&mut done.after, second);
            assert_eq!(asked(&octets, Form::One, 0, &[], &done), alone);
            flip(&mut done.after, second);
        }
        // Every bit from the first on.
        let wrong = right.iter().map(|octet| !octet);
        let mut wrong: Vec<u8> = wrong.collect();
        for address in 0..first {
            plain::set_bit(&mut wrong, address, plain::bit(&right, address));
        }
        assert_eq!(
            held(&octets, 0, &[], &step(&store, 0, &before, &wrong)),
            alone
        );
    }
}

/// A route of every width from every bit of an octet, its bits and those beside it.
#[test]
fn widths_and_places() {
    for (width, start) in (1..=64).flat_map(|width| (0..8).map(move |start| (width, start))) {
        let list = List {
            signals: vec![signal(424, width, 1, 1)],
            routes: vec![route(0, 8 + start)],
            ..List::default()
        }
        .octets();
        for store in [filled(0xB4), SILENT.to_vec()] {
            let before = [0xF0; 11];
            let right = ours(&list, &store, 0, &before);
            assert_eq!(
                held(&list, 0, &[], &step(&store, 0, &before, &right)),
                Ok(None)
            );
            let (first, end) = (8 + start as usize, (8 + start + width) as usize);
            for address in [first - 1, first, (first + end) / 2, end - 1, end] {
                let mut done = step(&store, 0, &before, &right);
                flip(&mut done.after, address);
                let reason = if store == SILENT { 2 } else { 0 };
                let place = (first..end).contains(&address).then_some((0, reason));
                assert_eq!(held(&list, 0, &[], &done), Ok(Some((address, place))));
            }
        }
    }
}

/// What one reading gives, by the octets that it depends on.
#[test]
fn each_reason() {
    let mut list = plain::List::judged(&L).unwrap();
    list.signals[0].since = 2;
    let list = list.octets();
    let told = |heard_octet: u8, octets: [u8; 4], clock: u32| {
        let mut telegram = r1(octets[2], octets[3]);
        telegram[..2].copy_from_slice(&octets[..2]);
        let mut store = SILENT.to_vec();
        plant(&mut store, 1, heard_octet, 0, &telegram);
        let right = ours(&list, &store, clock, &[0xAB]);
        let found = held(&list, 0, &[], &step(&store, clock, &[0xAB], &[!right[0]]));
        found.unwrap().and_then(|(_, place)| place)
    };
    let fine = [0x11, 2, 0x10, 0x40];
    let with = |at: usize, octet: u8| {
        let mut octets = fine;
        octets[at] = octet;
        octets
    };
    for (heard, octets, clock, reason) in [
        (1, fine, 5_000, 0),
        (1, with(2, 0x20), 5_000, 1),
        (0, fine, 5_000, 2),
        (1, with(0, 0x21), 5_000, 2),
        (1, fine, 5_001, 3),
        (2, fine, 0, 3),
        (1, with(0, 0x12), 0, 4),
        (1, with(1, 1), 0, 5),
        (1, with(2, 0x00), 0, 6),
        (1, with(2, 0x30), 0, 7),
        (1, with(3, 0x70), 0, 8),
    ] {
        assert_eq!(told(heard, octets, clock), Some((0, reason)));
    }
}

/// Two routes of one signal that read another vehicle each: the reason is that of the route named.
#[test]
fn the_reason_of_the_route_itself() {
    let mut list = two_routes();
    list.routes = (0..16).map(|n| route(0, 4 * n)).collect();
    let mut store = SILENT.to_vec();
    for (vehicle, r) in (1..).zip(&mut list.routes) {
        r.vehicle = vehicle as u64;
        let stamp = if vehicle % 3 == 0 { 0 } else { 5_000 };
        plant(
            &mut store,
            vehicle,
            (vehicle % 2) as u8,
            stamp,
            &r1(0, 0x40),
        );
    }
    let (list, before) = (list.octets(), [0x55; 8]);
    let right = ours(&list, &store, 6_000, &before);
    for address in 0..64 {
        let mut done = step(&store, 6_000, &before, &right);
        flip(&mut done.after, address);
        let vehicle = address / 4 + 1;
        let reason = match (vehicle % 2, vehicle % 3) {
            (0, _) => 2,
            (_, 0) => 3,
            _ => 0,
        };
        let wanted = Some((address, Some((address / 4, reason))));
        assert_eq!(held(&list, 0, &[], &done), Ok(wanted));
    }
}

/// "up to 1,000 steps": with 1,000 before it, a step is the 1,001st.
#[test]
fn how_many_steps() {
    let list = two_routes().octets();
    let done = step(&heard(0, 0x45), 0, &[0xAB, 0xCD], &[0x4B, 0x0D]);
    for steps in (0..1_000).step_by(EASE).chain([1, 998, 999]) {
        assert_eq!(held(&list, steps, &[0xAB, 0xCD], &done), Ok(None));
    }
    let far = (32..64).map(|power| (1usize << power) + 1);
    for steps in [1_000, 1_001, 1_256, 65_536]
        .into_iter()
        .chain(far)
        .chain([usize::MAX])
    {
        assert_eq!(
            held(&list, steps, &[0xAB, 0xCD], &done),
            Err(refusal(38, 0))
        );
        assert_eq!(
            held(&[], steps, &[], &step(&[], 0, &[], &[0])),
            Err(refusal(38, 0))
        );
    }
}

/// "a step's data before must be the last one's data after"; the first step, with none before it, follows no other.
#[test]
fn steps_follow_on() {
    let list = two_routes().octets();
    let (store, before) = (heard(0, 0x45), any_data(300));
    let right = ours(&list, &store, 0, &before);
    let done = step(&store, 0, &before, &right);
    let mut lasts: Vec<Vec<u8>> = (0..8 * before.len())
        .step_by(EASE)
        .map(|address| {
            let mut last = before.clone();
            flip(&mut last, address);
            last
        })
        .collect();
    lasts.extend((0..before.len()).map(|len| before[..len].to_vec()));
    lasts.extend((1..20).map(|more| [&before[..], &vec![0; more]].concat()));
    lasts.push(right.clone());
    for last in lasts {
        assert_eq!(asked(&list, Form::One, 0, &last, &done), Ok(None));
        for steps in [1, 2, 999] {
            let given = asked(&list, Form::One, steps, &last, &done);
            assert_eq!(given, Err(refusal(37, 0)));
        }
    }
    assert_eq!(held(&list, 999, &before, &done), Ok(None));
}

/// "36 the two data areas differ in length"; 12 is asked of the data before.
#[test]
fn lengths() {
    for list in [two_routes(), laid_out().remove(5), laid_out().remove(3)] {
        let (octets, needed) = (list.octets(), needed(&list));
        let all = (0..5).chain([needed.saturating_sub(1), needed, needed + 1, 255, 257, 700]);
        let all: Vec<usize> = all.collect();
        for (before, after, last) in all
            .iter()
            .flat_map(|&b| all.iter().map(move |&a| (b, a)))
            .flat_map(|(b, a)| [b, a, 0].map(|l| (b, a, l)))
        {
            let done = step(&SILENT, 0, &vec![0; before], &vec![0; after]);
            let found = held(&octets, 1, &vec![0; last], &done);
            let number = found.map_err(|refusal| refusal.number).err();
            let wanted = match () {
                _ if before < needed => Some(12),
                _ if after != before => Some(36),
                _ if last != before => Some(37),
                _ => None,
            };
            assert_eq!(number, wanted, "{before} {after} {last}");
        }
    }
}

/// A list of nothing: what was there stays there, also where there is nothing.
#[test]
fn no_routes() {
    for list in [&[0; 8][..], &laid_out()[5].octets()] {
        for len in [0, 1, 2, 255, 256, 257, 700] {
            let before = any_data(len);
            let mut done = step(&SILENT, 0, &before, &before);
            assert_eq!(held(list, 1, &before, &done), Ok(None));
            for address in (0..8 * len).step_by(EASE) {
                flip(&mut done.after, address);
                let found = asked(list, Form::One, 1, &before, &done);
                assert_eq!(found, Ok(Some((address, None))));
                flip(&mut done.after, address);
            }
        }
    }
}

/// All that can be wrong with a step, and that which is told: 38, the list, the store, 12, 36, 37, a bit.
#[test]
fn of_two_faults() {
    let list = two_routes().octets();
    let mut lists = vec![(list.clone(), None)];
    lists.push((list[..list.len() - 1].to_vec(), Some(refusal(1, 38))));
    lists.push(([&[0, 65], &list[2..]].concat(), Some(refusal(2, 0))));
    let mut broken = list.clone();
    broken[9] = 0;
    lists.push((broken, Some(refusal(3, 4))));
    lists.push(([&list[..], &[0]].concat(), Some(refusal(4, 52))));
    for (list, of_list) in &lists {
        for faults in 0..64 {
            let has = |fault: u8| faults >> fault & 1 == 1;
            let steps = if has(0) { 1_000 } else { 1 };
            let store = &heard(0, 0x45)[usize::from(has(1))..];
            let before = &[0xAB, 0xCD][..if has(2) { 1 } else { 2 }];
            let after = [0x4B, if has(5) { 0x0C } else { 0x0D }, 0];
            let after = &after[..if has(3) { 3 } else { before.len() }];
            let last = if has(4) { &[0xAB, 0xCC][..] } else { before };
            let found = held(list, steps, last, &step(store, 0, before, after));
            let wanted = match of_list {
                _ if has(0) => Err(refusal(38, 0)),
                Some(refusal) => Err(*refusal),
                _ if has(1) => Err(refusal(5, 0)),
                _ if has(2) => Err(refusal(12, 0)),
                _ if has(3) => Err(refusal(36, 0)),
                _ if has(4) => Err(refusal(37, 0)),
                _ if has(5) => Ok(Some((15, None))),
                _ => Ok(None),
            };
            assert_eq!(found, wanted, "{faults:06b}");
        }
    }
}

#[test]
fn other_stores() {
    let list = two_routes().octets();
    for len in [0, 1, SLOT, 8_379, STORE - 1, STORE + 1] {
        let done = step(&vec![0; len], 0, &[], &[0]);
        assert_eq!(held(&list, 0, &[], &done), Err(refusal(5, 0)));
    }
}

/// What is said of a recording: so many steps accepted, its list refused, or the step named, from 0.
#[derive(Debug, PartialEq)]
enum Verdict {
    Accepted(usize),
    Unlisted(Refusal),
    Named(usize, Result<Found, Refusal>),
}

/// "taken in one at a time": each with how many there were, and the last one's data after.
fn gone_through(list: &[u8], steps: &[Step]) -> Verdict {
    let mut last: &[u8] = &[];
    for (number, step) in steps.iter().enumerate() {
        let found = asked(list, Form::One, number, last, step);
        if found != Ok(None) {
            return Verdict::Named(number, found);
        }
        last = &step.after;
    }
    match judge(list, Form::One) {
        Ok(_) => Verdict::Accepted(steps.len()),
        Err(refusal) => Verdict::Unlisted(refusal),
    }
}

#[test]
fn few_steps() {
    let (list, store) = (two_routes().octets(), heard(0, 0x45));
    let first = step(&store, 0, &[0xAB, 0xCD], &[0x4B, 0x0D]);
    let go = |steps: &[Step]| gone_through(&list, steps);
    assert_eq!(go(&[]), Verdict::Accepted(0));
    assert_eq!(gone_through(&[], &[]), Verdict::Unlisted(refusal(1, 0)));
    let refused = Verdict::Named(0, Err(refusal(1, 0)));
    assert_eq!(gone_through(&[], std::slice::from_ref(&first)), refused);
    let late = step(&store, 5_001, &[0x4B, 0x0D], &[0x0B, 0x0D]);
    assert_eq!(go(&[first.clone(), late]), Verdict::Accepted(2));
    // The second too old, and still as it was; not following on.
    let stale = step(&store, 5_001, &[0x4B, 0x0D], &[0x4B, 0x0D]);
    let wrong = Verdict::Named(1, Ok(Some((1, Some((0, 3))))));
    assert_eq!(go(&[first.clone(), stale]), wrong);
    let broken = Verdict::Named(1, Err(refusal(37, 0)));
    assert_eq!(go(&[first.clone(), first.clone()]), broken);
    // A step behind a finding, which follows on or does not.
    let off = step(&store, 0, &[0xAB, 0xCD], &[0x4B, 0x0C]);
    let behind = step(&store, 0, &[0x4B, 0x0C], &[0x4B, 0x0C]);
    let wrong = || Verdict::Named(0, Ok(Some((15, None))));
    assert_eq!(go(&[off.clone(), behind]), wrong());
    assert_eq!(go(&[off, first]), wrong());
}

/// 1,000 steps are accepted, a 1,001st is refused, and a finding before it stays the finding.
#[test]
fn a_thousand_steps() {
    let (list, store) = (two_routes().octets(), heard(0, 0x45));
    let one = step(&store, 0, &[0x4B, 0x0D], &[0x4B, 0x0D]);
    let mut steps = vec![one; 1_001];
    assert_eq!(
        gone_through(&list, &steps[..1_000]),
        Verdict::Accepted(1_000)
    );
    let many = Verdict::Named(1_000, Err(refusal(38, 0)));
    assert_eq!(gone_through(&list, &steps), many);
    for number in [999, 998, 1, 0] {
        flip(&mut steps[number].after, 0);
        let wrong = Verdict::Named(number, Ok(Some((0, Some((0, 0))))));
        assert_eq!(gone_through(&list, &steps), wrong);
    }
}

/// A bit of a route, or any.
fn any_bit(r: &mut Random, list: &List, bits: u64) -> usize {
    let address = match list.routes.len() as u64 {
        routes if routes > 0 && !r.one_in(4) => {
            let of = &list.routes[r.below(routes) as usize];
            of.start + r.below(list.signals[of.signal as usize].width)
        }
        _ => r.below(bits),
    };
    address as usize
}

/// Data after, as a supplier may make them: ours, with a bit off, or two; as they were; at another time; all else cleared.
fn made_after(r: &mut Random, list: &List, done: &Step) -> Vec<u8> {
    let (octets, store, now) = (list.octets(), &done.store, done.clock);
    let mut after = ours(&octets, store, now, &done.before);
    let bits = 8 * after.len() as u64;
    match r.below(10) {
        0 => after = done.before.clone(),
        1 => after = ours(&octets, store, now.wrapping_add(5_000), &done.before),
        2 => after = ours(&octets, store, now, &vec![0; after.len()]),
        3..=7 if bits > 0 => {
            for _ in 0..r.within(1, 2) {
                let address = any_bit(r, list, bits);
                flip(&mut after, address);
            }
        }
        _ => {}
    }
    after
}

#[test]
fn made_steps() {
    let mut r = Random::new(211);
    let (mut refused, mut reasons, mut right, mut outside) = ([0; 39], [0; 9], 0, 0);
    for round in 0..20_000 / EASE {
        let list = make::list(&mut r, round % 100 == 0);
        let clock = r.of(&[0, 50, 5_000, 4_000_000_000]);
        let len = needed(&list) + r.of(&[0, 0, 0, 1, 5, 300]);
        let before = r.octets(len);
        let mut done = step(&make::store(&mut r, clock), clock, &before, &before);
        done.after = made_after(&mut r, &list, &done);
        let (mut steps, mut last) = (r.of(&[0, 1, 7, 999]), done.before.clone());
        match r.below(20) {
            0 => drop(done.store.pop()),
            1 => drop(done.before.pop()),
            2 => drop(done.after.pop()),
            3 => drop(last.pop()),
            4 => last.push(0),
            5 => steps = r.of(&[1_000, 1_001, usize::MAX]),
            _ => {}
        }
        match held(&list.octets(), steps, &last, &done) {
            Ok(None) => right += 1,
            Ok(Some((_, None))) => outside += 1,
            Ok(Some((_, Some((_, reason))))) => reasons[usize::from(reason)] += 1,
            Err(refusal) => refused[usize::from(refusal.number)] += 1,
        }
    }
    for number in [5, 12, 36, 37, 38] {
        assert!(refused[number] > 100 / EASE, "{number}: {refused:?}");
    }
    assert!(reasons.iter().all(|&n| n > 20 / EASE), "{reasons:?}");
    assert!(
        right > 1_500 / EASE && outside > 1_000 / EASE,
        "{right} {outside}"
    );
}

/// What we marshal is accepted, step upon step; with a bit off in one of them, that step is named.
#[test]
fn our_own_recordings() {
    let mut r = Random::new(212);
    for _ in 0..300 / EASE {
        let list = make::list(&mut r, false);
        let octets = list.octets();
        let mut data = r.octets(needed(&list) + 2);
        let steps: Vec<Step> = (0..r.within(1, 12))
            .map(|_| {
                let clock = r.word() as u32;
                let store = make::store(&mut r, clock);
                let before = data.clone();
                data = ours(&octets, &store, clock, &before);
                step(&store, clock, &before, &data)
            })
            .collect();
        assert_eq!(
            gone_through(&octets, &steps),
            Verdict::Accepted(steps.len())
        );
        let (mut damaged, at) = (steps.clone(), r.below(steps.len() as u64) as usize);
        let address = r.below(8 * data.len() as u64) as usize;
        flip(&mut damaged[at].after, address);
        let Verdict::Named(number, Ok(Some((found, _)))) = gone_through(&octets, &damaged) else {
            panic!("a bit is off");
        };
        assert_eq!((number, found), (at, address));
    }
}

/// Where a list knows a code of the first route alone, the reason is that of each.
#[test]
fn known_codes() {
    let mut list = two_routes();
    list.signals[1].since = 1;
    list.codes.push(Code {
        signal: 1,
        low: 0,
        high: 4,
    });
    let (list, store) = (list.octets(), heard(0, 0x45));
    let found = |after: [u8; 2]| held(&list, 0, &[], &step(&store, 0, &[0, 0], &after));
    assert_eq!(found([0x40, 0x00]), Ok(None));
    assert_eq!(found([0x50, 0x00]), Ok(Some((3, Some((0, 0))))));
    assert_eq!(found([0x40, 0x50]), Ok(Some((9, Some((1, 8))))));
}
