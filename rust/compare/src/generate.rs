//! Cases of every call.

use std::mem;

use crate::case::{is_scaled, Call, Case, KINDS, PROFILES};
use crate::damage::{any_list, damaged, mostly_good, said_form};
use crate::list::List;
use crate::random::Random;
use crate::{doors, edited, make, narrow, pair, readings, records, steps, store, texts};
use reference::{HEAD, SLOT, STORE, VEHICLES};

/// The request codes of document 01.
pub const REQUESTS: [u16; 25] = [
    0x1007, 0x1012, 0x1013, 0x1015, 0x2001, 0x4002, 0x4007, 0x4009, 0x4011, 0x4013, 0x4015, 0x4020,
    0x4047, 0x5003, 0x5007, 0x5009, 0x6002, 0x7001, 0x8002, 0x8003, 0x8007, 0x8008, 0x8009, 0x8010,
    0x9001,
];

pub fn case(r: &Random) -> Case {
    match r.below(309) {
        0..=13 | 176..=179 | 216..=217 | 302 => {
            let (list, form) = any_list(r);
            Case::new(Call::Judge, vec![list], vec![form])
        }
        14..=16 => signal_entry(r),
        17..=19 => find_signal(r),
        20..=34 => {
            let (lists, forms) = pair::pair(r);
            Case::new(Call::Extends, lists, forms)
        }
        35..=37 => check_place(r),
        38..=43 => take(r),
        44..=46 => sweep(r),
        47..=61 | 180..=184 | 219..=220 | 303..=304 => read(r),
        62..=70 => marshal(r),
        71..=82 => compose(r),
        83..=85 | 114..=122 => show(r),
        123..=134 | 308 => relay(r),
        135..=150 | 306 => judge_profile(r),
        151..=159 => signal_change(r),
        160..=166 => route_change(r),
        167..=175 => codes_gained(r),
        86..=91 | 187 | 305 => resolve(r),
        92..=94 | 221..=222 => e_read(r),
        95..=99 => e_answer(r),
        100..=102 | 301 => serial(r),
        103..=105 => moved(r, Call::ToForm2, [1, 2]),
        106..=109 | 185..=186 | 218 | 307 => moved(r, Call::ToForm1, [2, 1]),
        188..=197 => texts::read(r),
        198..=203 => texts::block(r),
        204..=215 => texts::write(r),
        223..=231 => records::christen(r),
        232..=236 => records::property(r),
        237..=252 => doors::doors(r),
        253..=276 => steps::check_step(r),
        277..=288 => readings::read_all(r),
        289..=300 => readings::read_train(r),
        _ => gap(r),
    }
}

/// Mostly a list in a profile, or short of one by little, at times any list; and some of them damaged, so that 1 to 4 come before 34.
fn judge_profile(r: &Random) -> Case {
    let list = match r.one_in(10) {
        true => make::list(r),
        false => narrow::list(r),
    };
    let profile = r.of(&[1, 1, 2, 2, 2, r.of(&PROFILES)]);
    let numbers = vec![said_form(r, &list), profile];
    let octets = match r.one_in(5) {
        true => damaged(r, list),
        false => list.octets(),
    };
    Case::new(Call::JudgeProfile, vec![octets], numbers)
}

/// A key to ask from: mostly 0, or one of these or beside it.
fn asked_from(r: &Random, keys: &[u64]) -> u64 {
    let key = match keys {
        [] => r.below(3_100),
        _ => r.of(keys),
    };
    match r.below(10) {
        0..=3 => 0,
        4 | 5 => key,
        6 => key + 1,
        7 => key.saturating_sub(1),
        8 => r.below(3_100),
        _ => r.of(&[r.beyond(key), u64::MAX]),
    }
}

fn signal_change(r: &Random) -> Case {
    let lists = edited::lists(r, edited::Of::Signals);
    let signals = lists.iter().flat_map(|list| &list.signals);
    let from = asked_from(r, &signals.map(edited::key).collect::<Vec<u64>>());
    let (areas, mut numbers) = pair::lent(r, lists);
    numbers.push(from);
    Case::new(Call::SignalChange, areas, numbers)
}

fn route_change(r: &Random) -> Case {
    let lists = edited::lists(r, edited::Of::Routes);
    let routes = lists.iter().flat_map(|list| &list.routes);
    let from = asked_from(r, &routes.map(|route| route.start).collect::<Vec<u64>>());
    let (areas, mut numbers) = pair::lent(r, lists);
    numbers.push(from);
    Case::new(Call::RouteChange, areas, numbers)
}

/// Mostly of a signal that does not know the same codes in both lists, from an end of a range or beside it.
fn codes_gained(r: &Random) -> Case {
    let lists = edited::lists(r, edited::Of::Codes);
    let apart = edited::with_other_codes(&lists);
    let signals = lists.iter().flat_map(|list| &list.signals);
    let keys: Vec<u64> = signals.map(edited::key).collect();
    let key = match r.below(8) {
        0 => asked_from(r, &keys),
        1..=5 if !apart.is_empty() => r.of(&apart),
        _ if keys.is_empty() => 1_024,
        _ => r.of(&keys),
    };
    let edges: Vec<u64> = lists
        .iter()
        .flat_map(|list| &list.codes)
        .flat_map(|c| [c.low, c.high + 1])
        .collect();
    let from = asked_from(r, &edges);
    let (areas, mut numbers) = pair::lent(r, lists);
    numbers.extend([key, from]);
    Case::new(Call::CodesGained, areas, numbers)
}

/// The number of a signal, mostly one that the list has.
fn signal(r: &Random, list: &List) -> u64 {
    let signals = list.signals.len() as u64;
    match r.below(24) {
        0 => r.of(&[signals, signals + 1, 256, u64::MAX]),
        1 => r.beyond(0),
        2..=4 => signals.saturating_sub(1),
        _ => r.below(signals.max(1)),
    }
}

fn signal_entry(r: &Random) -> Case {
    let list = make::list_with_signals(r);
    let number = signal(r, &list);
    let numbers = vec![said_form(r, &list), number];
    Case::new(Call::SignalEntry, vec![mostly_good(r, &list)], numbers)
}

fn serial(r: &Random) -> Case {
    Case {
        call: Call::Serial,
        ..signal_entry(r)
    }
}

/// A list to be moved from one form to the other, into an output of the needed length, or about so long.
fn moved(r: &Random, call: Call, [from, to]: [u64; 2]) -> Case {
    let mut list = match r.one_in(60) {
        true => make::longest(r),
        false => make::list(r),
    };
    make::lay_out(r, &mut list, from);
    let needed = List {
        form: to,
        ..list.clone()
    }
    .octets()
    .len();
    let mut octets = mostly_good(r, &list);
    if r.one_in(16) {
        // A list that has the other form already.
        list.form = to;
        octets = list.octets();
    }
    let len = match r.below(4) {
        0 => r.of(&[
            needed + 1,
            needed + 2,
            needed - 1,
            needed - 2,
            octets.len(),
            0,
        ]),
        _ => needed,
    };
    Case::new(call, vec![octets, r.octets(len)], vec![])
}

/// Mostly the type and start of a signal; else one of them is another, or both together are another signal's key.
fn find_signal(r: &Random) -> Case {
    let list = make::list_with_signals(r);
    let wanted = list.signals.get(signal(r, &list) as usize);
    let (kind, start) = wanted.map_or((r.below(3), r.below(1_024)), |s| (s.kind, s.start));
    let key = match r.below(12) {
        0 => [r.of(&[0, 1, 2, 3, 255, u64::MAX]), start],
        1 => [r.beyond(kind), start],
        2 => [kind, r.near(start)],
        3 => [kind, r.beyond(start)],
        4 => [kind.saturating_sub(1), start + 1_024],
        5 => [r.below(4), r.below(1_100)],
        _ => [kind, start],
    };
    let numbers = vec![said_form(r, &list), key[0], key[1]];
    Case::new(Call::FindSignal, vec![mostly_good(r, &list)], numbers)
}

fn check_place(r: &Random) -> Case {
    let bit = r.below(640);
    let bit = r.of(&[bit, bit, bit, r.beyond(bit), r.word()]);
    Case::new(Call::CheckPlace, vec![], vec![bit])
}

pub fn vehicle(r: &Random) -> u64 {
    match r.below(24) {
        0 => r.of(&[0, 64, 65, 255, 256, u64::MAX]),
        1 => r.beyond(1),
        2 => r.of(&[1, 63]),
        3 => r.within(1, 63),
        _ => r.within(1, 3),
    }
}

/// The length, or one near it.
fn about(r: &Random, len: usize) -> usize {
    match r.below(16) {
        0 => len + 1,
        1 => len.saturating_sub(1),
        2 => r.of(&[0, 1, 2, 39, 40, 41, 127, 128, 129]),
        _ => len,
    }
}

pub fn resized(r: &Random, mut octets: Vec<u8>, len: usize) -> Vec<u8> {
    let more = len.saturating_sub(octets.len());
    octets.extend(r.octets(more));
    octets.truncate(len);
    octets
}

/// A store, at times of another length.
pub fn any_store(r: &Random, store: Vec<u8>) -> Vec<u8> {
    match r.below(24) {
        0 => no_store(r, store),
        _ => store,
    }
}

/// A store, of another length.
pub fn no_store(r: &Random, store: Vec<u8>) -> Vec<u8> {
    let len = r.of(&[
        STORE - 1,
        STORE + 1,
        STORE - SLOT,
        STORE + SLOT,
        0,
        store::OLD_STORE,
        store::OLD_STORE,
    ]);
    resized(r, store, len)
}

fn take(r: &Random) -> Case {
    let list = make::list(r);
    let now = store::clock(r);
    let kind = r.within(1, 3);
    let mut telegram = store::telegram(r, &list, kind);
    if r.one_in(6) {
        telegram[0] = r.octet();
    }
    let len = about(r, telegram.len());
    let telegram = resized(r, telegram, len);
    let store = store::store(r, &list, now);
    let store = any_store(r, store);
    let numbers = vec![vehicle(r), store::clock(r).into()];
    Case::new(Call::Take, vec![store, telegram], numbers)
}

fn gap(r: &Random) -> Case {
    let (list, now) = (make::list(r), store::clock(r));
    let store = store::store(r, &list, now);
    Case::new(Call::Gap, vec![any_store(r, store)], vec![vehicle(r)])
}

fn sweep(r: &Random) -> Case {
    let now = store::clock(r);
    let store = store::parked(r, now);
    Case::new(Call::Sweep, vec![any_store(r, store)], vec![now.into()])
}

fn read(r: &Random) -> Case {
    let list = make::list_with_signals(r);
    let number = signal(r, &list);
    read_under(r, &list, number)
}

/// A signal read under a list, or what became of it.
fn read_under(r: &Random, list: &List, signal: u64) -> Case {
    let now = store::clock(r);
    let store = store::store(r, list, now);
    let areas = vec![mostly_good(r, list), any_store(r, store)];
    let numbers = vec![said_form(r, list), now.into(), vehicle(r), signal];
    Case::new(Call::Read, areas, numbers)
}

/// A reading shown: mostly of a signal of 16 bits, or of one bit more or less, where the kind is scaled.
fn show(r: &Random) -> Case {
    let kind = r.of(&[r.of(&KINDS), r.of(&KINDS), r.within(1, 4)]);
    let list = match is_scaled(kind) {
        true => make::list_to_scale(r),
        false => make::list_with_signals(r),
    };
    let near: Vec<u64> = (0..)
        .zip(&list.signals)
        .filter(|(_, s)| s.is_near_16_bits())
        .map(|(number, _)| number)
        .collect();
    let number = match is_scaled(kind) && !near.is_empty() && !r.one_in(6) {
        true => r.of(&near),
        false => signal(r, &list),
    };
    let mut case = read_under(r, &list, number);
    case.call = Call::Show;
    case.numbers.push(kind);
    case
}

fn marshal(r: &Random) -> Case {
    let list = make::list_with_routes(r);
    let now = store::clock(r);
    let store = store::store(r, &list, now);
    let end = list.routes.last().map_or(0, |route| {
        route.start + list.signals[route.signal as usize].width
    });
    let end = end.div_ceil(8) as usize;
    let len = r.of(&[
        end,
        end,
        end,
        end + 1,
        end.saturating_sub(1),
        256,
        end + 40,
        0,
    ]);
    let data = match r.below(3) {
        0 => vec![0; len],
        1 => vec![0xFF; len],
        _ => r.octets(len),
    };
    let areas = vec![mostly_good(r, &list), any_store(r, store), data];
    Case::new(Call::Marshal, areas, vec![said_form(r, &list), now.into()])
}

fn compose(r: &Random) -> Case {
    let list = make::list_with_signals(r);
    let kind = match r.below(12) {
        0 => r.of(&[0, 4, 5, 255, u64::MAX]),
        1 => r.beyond(1),
        _ => r.within(1, 3),
    };
    let values = values(r, &list, kind);
    let marks = marks(r, &list);
    let out = about(r, if kind == 3 { 40 } else { 128 });
    let out = r.octets(out);
    Case {
        values,
        ..Case::new(
            Call::Compose,
            vec![mostly_good(r, &list), marks, out],
            vec![said_form(r, &list), kind],
        )
    }
}

/// One value for each signal, known where it is written; at times one that is not good, and anything where it is not written.
fn values(r: &Random, list: &List, kind: u64) -> Vec<u64> {
    let anything = r.one_in(2);
    let mut values = Vec::new();
    for (number, s) in list.signals.iter().enumerate() {
        values.push(match s.carried_by(kind) {
            false if anything => r.word(),
            _ => match list.codes_of(number).next() {
                Some(code) => r.of(&[code.low, code.high]),
                None => r.of(&[0, s.top(), r.word() & s.top()]),
            },
        });
    }
    if !values.is_empty() && r.one_in(4) {
        for _ in 0..r.within(1, 2) {
            let at = r.index(values.len());
            let top = list.signals[at].top();
            values[at] = r.of(&[
                top,
                top.wrapping_add(1),
                1 << r.of(&[47, 48, 49, 62, 63]),
                r.word() & top,
                r.word(),
                u64::MAX,
                r.beyond(0),
            ]);
        }
    }
    let len = about(r, values.len()).min(values.len() + 1);
    values.resize(len, 0);
    values
}

fn marks(r: &Random, list: &List) -> Vec<u8> {
    let mut marks: Vec<u8> = list.checks.iter().map(|_| r.below(4) as u8).collect();
    if !marks.is_empty() && r.one_in(5) {
        let at = r.index(marks.len());
        marks[at] = r.of(&[4, 5, 128, 255, r.octet()]);
    }
    let len = about(r, marks.len()).min(marks.len() + 1);
    marks.resize(len, 1);
    marks
}

/// What a vehicle was heard with, mostly, and an output of the length that its type has.
fn relay(r: &Random) -> Case {
    let list = make::list_to_relay(r);
    let now = store::clock(r);
    let store = store::store(r, &list, now);
    let vehicle = vehicle(r);
    let head = match vehicle as usize {
        1..=VEHICLES => store[SLOT * (vehicle as usize - 1) + HEAD],
        _ => 0,
    };
    let len = about(r, if head & 15 == 3 { 40 } else { 128 });
    let areas = vec![mostly_good(r, &list), any_store(r, store), r.octets(len)];
    let numbers = vec![said_form(r, &list), now.into(), vehicle];
    let mut case = Case::new(Call::Relay, areas, numbers);
    if r.one_in(8) {
        worsen(r, list, &mut case);
    }
    case
}

/// Several faults in a case of relaying, which come together by chance too seldom.
fn worsen(r: &Random, list: List, case: &mut Case) {
    if r.one_in(2) {
        case.areas[0] = damaged(r, list);
    }
    if r.one_in(2) {
        case.areas[1] = no_store(r, mem::take(&mut case.areas[1]));
    }
    if r.one_in(2) {
        case.numbers[2] = r.of(&[0, 64, 65, 255, u64::MAX, r.beyond(1)]);
    }
    if r.one_in(2) {
        case.areas[2].push(r.octet());
    }
}

/// A consist: one leading vehicle or none, led ones among the tractive; at times a rule is broken.
pub fn consist(r: &Random, len: usize) -> Vec<u8> {
    let sparse = r.one_in(3);
    let mut marks: Vec<u8> = (0..len)
        .map(|_| match sparse {
            true => 2,
            false => r.of(&[0, 2, 4, 12, 16, 18, 6, 14, 28]),
        })
        .collect();
    if len > 0 && !r.one_in(4) {
        let at = r.index(len);
        marks[at] = r.of(&[1, 5, 7, 21]);
    }
    if len > 0 && r.one_in(6) {
        let at = r.index(len);
        marks[at] = r.of(&[1, 8, 9, 13, 24, r.octet()]);
    }
    if r.one_in(2) {
        // The three high bits are not read.
        marks.iter_mut().for_each(|mark| *mark |= r.octet() & 0xE0);
    }
    marks
}

fn resolve(r: &Random) -> Case {
    let len = match r.below(8) {
        0 => r.of(&[0, 1, 62, 63, 64, 65]),
        1..=3 => r.below(66),
        _ => r.within(1, 12),
    };
    let address = match r.below(8) {
        0 => r.beyond(r.of(&[1, 64, 66])),
        1..=2 => r.below(101),
        3 => r.of(&[len, len + 1]),
        _ => r.of(&[64, 65, 66, 67, 70, 92]),
    };
    Case::new(Call::Resolve, vec![consist(r, len as usize)], vec![address])
}

fn e_telegram(r: &Random) -> Vec<u8> {
    let request = r.of(&REQUESTS);
    let code = match r.below(10) {
        0 => r.word() as u16,
        1 => r.near(request.into()) as u16,
        2 => r.near(u64::from(request) + 0x0A00) as u16,
        3 => request.wrapping_sub(0x0A00),
        4 => request.wrapping_add(0x0A00),
        5 => texts::REMEDIES,
        _ => request,
    };
    // The code with the other limit has its own ends too.
    let len = match r.below(if code == texts::REMEDIES { 6 } else { 12 }) {
        0 => r.of(&[0, 1, 6, 7, 8]),
        1 => r.of(&[1_022, 1_023, 1_024, 1_025, 1_100]),
        2 => r.index(1_101),
        3 => r.of(&[2_109, 2_110, 2_111, r.index(2_200)]),
        _ => r.of(&[9, 9, 9, 10, 40]),
    };
    let mut telegram = r.octets(len);
    if let Some(octets) = telegram.get_mut(6..8) {
        octets.copy_from_slice(&code.to_be_bytes());
    }
    telegram
}

fn e_read(r: &Random) -> Case {
    Case::new(Call::ERead, vec![e_telegram(r)], vec![])
}

fn e_answer(r: &Random) -> Case {
    let head = r.of(&[6, 6, 6, 6, 6, 6, 5, 7, 0]);
    let out = r.of(&[9, 9, 9, 9, 10, 8, 0, 40, 1_024]);
    let areas = vec![e_telegram(r), r.octets(head), r.octets(out)];
    Case::new(Call::EAnswer, areas, vec![r.octet().into()])
}
