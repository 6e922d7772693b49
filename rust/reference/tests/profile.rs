//! C-19: lists judged by the profiles of plain coaches and of driving trailers.

mod support;

use reference::{judge, judge_profile, Form, Profile};
use support::plain::{self, Code, List, Route, Signal};
use support::{make, refusal, widened, Random, EASE, L, SERIAL_SIZE, SIGNAL_SIZE};

/// An entry of a list, from 0.
#[derive(Debug, Clone, Copy)]
enum At {
    Signal(usize),
    Route(usize),
}

const PROFILES: [Profile; 2] = [Profile::PlainCoach, Profile::DrivingTrailer];

/// The list in both forms, with the octets of a signal entry.
fn in_forms(list: &List) -> [(Form, usize, Vec<u8>); 2] {
    let octets = list.octets();
    let serials = vec![[0x40, 0xC0]; list.signals.len()];
    let wide = widened(&octets, list.checks.len(), &serials);
    [
        (Form::One, SIGNAL_SIZE, octets),
        (Form::Two, SIGNAL_SIZE + SERIAL_SIZE, wide),
    ]
}

/// Holds both profiles, in both forms, to the entry that is at fault, or to what the general judging says where none is.
fn assert_at(list: &List, faults: [Option<At>; 2]) {
    for (profile, fault) in PROFILES.into_iter().zip(faults) {
        for (form, size, octets) in in_forms(list) {
            let general = judge(&octets, form);
            assert!(general.is_ok(), "{general:?} of {list:?}");
            let signals = 2 + 2 * list.checks.len() + 2;
            let routes = signals + size * list.signals.len() + 2 + 6 * list.codes.len() + 2;
            let wanted = match fault {
                None => general,
                Some(At::Signal(i)) => Err(refusal(34, (signals + size * i) as u64)),
                Some(At::Route(i)) => Err(refusal(34, (routes + 6 * i) as u64)),
            };
            let answer = judge_profile(profile, &octets, form);
            assert_eq!(answer, wanted, "{profile:?} {form:?} {list:?}");
            let allows_r1 = profile == Profile::DrivingTrailer;
            assert_eq!(answer, plain::judge_profile(allows_r1, &octets, size));
        }
    }
}

/// Accepted by both.
fn assert_good(list: &List) {
    assert_at(list, [None, None]);
}

/// At fault for both, at the same entry.
fn assert_bad(list: &List, at: At) {
    assert_at(list, [Some(at), Some(at)]);
}

/// Accepted by the driving trailer's alone, since this signal is of R1.
fn assert_trailers(list: &List, signal: usize) {
    assert_at(list, [Some(At::Signal(signal)), None]);
}

/// A signal under the first check, in time for 5,000 ms, replaced by 0.
fn signal(kind: u64, start: u64, width: u64) -> Signal {
    Signal {
        start,
        width,
        kind,
        check: 1,
        since: 1,
        limit: 5_000,
        replacement: 0,
    }
}

/// Signals under a check of octet 3, those of R1 and R2 under one of octet 41.
fn list(signals: &[Signal]) -> List {
    let under_its_check = |s: &Signal| Signal {
        check: 1 + s.kind.min(1),
        ..s.clone()
    };
    List {
        checks: vec![16, 322],
        signals: signals.iter().map(under_its_check).collect(),
        ..List::default()
    }
}

/// Two of type 0 and two of R1.
fn mixed() -> List {
    list(&[
        signal(0, 24, 4),
        signal(0, 28, 64),
        signal(1, 424, 4),
        signal(1, 428, 28),
    ])
}

/// So many of type 0, of one bit each.
fn bits(count: u64) -> List {
    let signals: Vec<Signal> = (0..count).map(|i| signal(0, 18 + i, 1)).collect();
    list(&signals)
}

fn route(signal: u64, start: u64) -> Route {
    Route {
        signal,
        vehicle: 1,
        zero: 0,
        start,
    }
}

#[test]
fn list_l() {
    let octets = &L[..];
    let of = |profile| judge_profile(profile, octets, Form::One);
    assert_eq!(of(Profile::PlainCoach), Err(refusal(34, 6)));
    assert_eq!(of(Profile::DrivingTrailer), judge(octets, Form::One));
    assert_trailers(&List::judged(octets).unwrap(), 0);
}

#[test]
fn no_signal_breaks_nothing() {
    assert_good(&List::default());
    assert_good(&list(&[]));
}

/// "only type 0 signals"; "A second profile, for driving trailers, also allows R1 signals".
#[test]
fn types() {
    assert_good(&list(&[signal(0, 24, 4)]));
    assert_trailers(&mixed(), 2);
    assert_bad(&list(&[signal(2, 424, 4)]), At::Signal(0));
    let mut all = mixed();
    all.signals.push(Signal {
        check: 2,
        ..signal(2, 424, 4)
    });
    assert_at(&all, [Some(At::Signal(2)), Some(At::Signal(4))]);
}

/// "at most 64", whatever the 65th is.
#[test]
fn sixty_four() {
    for count in [1, 2, 63, 64] {
        assert_good(&bits(count));
    }
    for count in [65, 66, 128, 256] {
        assert_bad(&bits(count), At::Signal(64));
    }
    let under_41 = |kind| Signal {
        check: 2,
        ..signal(kind, 424, 4)
    };
    for (common, kind, faults) in [
        (63, 1, [Some(At::Signal(63)), None]),
        (63, 2, [Some(At::Signal(63)); 2]),
        (64, 1, [Some(At::Signal(64)); 2]),
        (64, 2, [Some(At::Signal(64)); 2]),
    ] {
        let mut list = bits(common);
        list.signals.push(under_41(kind));
        assert_at(&list, faults);
    }
}

/// Of 65 and more signals, those before the 65th are at fault first, and those behind it are not looked at.
#[test]
fn faults_around_the_65th() {
    for at in [0, 62, 63, 64, 65, 66] {
        let mut list = bits(67);
        list.signals[at].limit = 0;
        assert_bad(&list, At::Signal(at.min(64)));
    }
}

/// "every signal has a check".
#[test]
fn checks() {
    for at in 0..4 {
        let mut list = mixed();
        list.signals[at].check = 0;
        assert_at(&list, [At::Signal(at.min(2)), At::Signal(at)].map(Some));
    }
}

/// "and a time limit from 1 to 5,000 ms".
#[test]
fn limits() {
    for at in 0..4 {
        let mut list = mixed();
        for limit in [1, 2, 255, 256, 4_999, 5_000] {
            list.signals[at].limit = limit;
            assert_trailers(&list, 2);
        }
        // Some of these are good once they are cut to 16 or 24 bits.
        for limit in [
            0, 5_001, 5_002, 65_535, 65_536, 65_537, 70_536, 599_999, 600_000,
        ] {
            list.signals[at].limit = limit;
            assert_at(&list, [At::Signal(at.min(2)), At::Signal(at)].map(Some));
        }
    }
}

/// "every replacement is a known code": a fault of the signal, not of its entries.
#[test]
fn replacements() {
    let known = [(0, 2, 2), (0, 4, 6), (2, 0, 0), (2, 15, 15)];
    let code = |(signal, low, high)| Code { signal, low, high };
    for replacement in 0..=15 {
        let mut list = mixed();
        list.codes = known.map(code).to_vec();
        list.signals[2].replacement = replacement;
        let of_r1 = match replacement {
            0 | 15 => None,
            _ => Some(At::Signal(2)),
        };
        // Signal 0 does not know 0.
        assert_bad(&list, At::Signal(0));
        list.signals[0].replacement = 4;
        assert_at(&list, [Some(At::Signal(2)), of_r1]);

        list.signals[2].replacement = 15;
        list.signals[0].replacement = replacement;
        match replacement {
            2 | 4..=6 => assert_trailers(&list, 2),
            _ => assert_bad(&list, At::Signal(0)),
        }
    }
    // "A signal with no entry knows every code."
    let mut list = mixed();
    for (at, most) in [(0, 15), (1, (1 << 48) - 1), (2, 15), (3, (1 << 28) - 1)] {
        list.signals[at].replacement = most;
        assert_trailers(&list, 2);
    }
}

/// One R1 signal under the check at a place.
fn under(place: u64, start: u64, width: u64) -> List {
    List {
        checks: vec![place],
        signals: vec![signal(1, start, width)],
        ..List::default()
    }
}

/// "each in octets 47-73 and wholly under the check place that the table in document 01 gives for its bits".
#[test]
fn ends_of_rows() {
    for (place, start, width, good) in [
        (320, 367, 1, false),
        (320, 367, 2, false),
        (320, 368, 1, true),
        (320, 368, 56, true),
        (320, 369, 56, false),
        (320, 423, 1, true),
        (320, 424, 1, false),
        (322, 424, 32, true),
        (322, 424, 33, false),
        (324, 456, 8, true),
        (324, 463, 1, true),
        (324, 463, 2, false),
        (326, 463, 2, false),
        (326, 463, 1, false),
        (326, 464, 1, true),
        (326, 464, 24, true),
        (328, 488, 4, true),
        (328, 488, 5, false),
        (330, 491, 2, false),
        (330, 492, 4, true),
        (350, 575, 2, false),
        (352, 576, 8, true),
        (352, 583, 1, true),
        (352, 583, 2, false),
        (352, 584, 1, false),
        // No places of the table.
        (354, 583, 1, false),
        (354, 584, 1, false),
        (1022, 368, 1, false),
    ] {
        let list = under(place, start, width);
        match good {
            true => assert_trailers(&list, 0),
            false => assert_bad(&list, At::Signal(0)),
        }
    }
}

/// Every start with some widths under every check of the table, and one that is none of it: by the check's place, whatever its number.
#[test]
fn every_bit_under_every_check() {
    let places: Vec<u64> = (320..=354).step_by(2).collect();
    let widths = [1, 2, 4, 5, 8, 9, 24, 25, 32, 56, 57, 64];
    let mut good = 0;
    for start in 360..=592 {
        for width in widths {
            for (number, &place) in (1..).zip(&places) {
                let alone = under(place, start, width);
                let mut beside = alone.clone();
                beside.checks.clone_from(&places);
                beside.signals[0].check = number;
                let all = (start..start + width).all(|b| plain::check_place(b) == Some(place));
                good += u64::from(all);
                for list in [alone, beside] {
                    let answer = judge_profile(Profile::DrivingTrailer, &list.octets(), Form::One);
                    assert_eq!(answer.is_ok(), all, "{place} {start} {width}");
                }
            }
        }
    }
    // Of the rows, one has 7 octets, one 4, one 3, and two have half of one; the other twelve have one each.
    let halves = [14, 8, 6, 1, 1].into_iter().chain([2; 12]);
    let fields = |bits: u64| {
        widths
            .map(|width| (bits + 1).saturating_sub(width))
            .iter()
            .sum::<u64>()
    };
    assert_eq!(good, halves.map(|n| fields(4 * n)).sum());
}

/// The number of a check says nothing: the first of one list is the second of another.
#[test]
fn a_check_by_its_place() {
    let mut list = under(320, 424, 4);
    assert_bad(&list, At::Signal(0));
    list.checks = vec![322];
    assert_trailers(&list, 0);
    list.checks = vec![320, 322];
    assert_bad(&list, At::Signal(0));
    list.signals[0].check = 2;
    assert_trailers(&list, 0);
    list.checks = vec![16, 320, 322];
    assert_bad(&list, At::Signal(0));
    list.signals[0].check = 3;
    assert_trailers(&list, 0);
}

/// A signal of type 0 may have any check of its octets, and lie anywhere in them.
#[test]
fn type_0_has_no_row() {
    for (place, start) in [(16, 18), (16, 256), (318, 16), (318, 254)] {
        assert_good(&List {
            checks: vec![place],
            signals: vec![signal(0, start, 62)],
            ..List::default()
        });
    }
}

/// "at most 16 octets of destination data".
#[test]
fn routes() {
    for (end, good) in [
        (64, true),
        (127, true),
        (128, true),
        (129, false),
        (2_048, false),
    ] {
        for (number, width) in [(0, 1), (1, 64)] {
            let mut list = list(&[signal(0, 24, 1), signal(0, 28, 64)]);
            list.routes = vec![route(number, end - width)];
            match good {
                true => assert_good(&list),
                false => assert_bad(&list, At::Route(0)),
            }
        }
    }
    let mut list = bits(64);
    list.codes = [(3, 0, 0), (63, 0, 1)]
        .map(|(signal, low, high)| Code { signal, low, high })
        .to_vec();
    list.routes = (0..128).map(|i| route(i % 64, i)).collect();
    assert_good(&list);
    for more in [1, 2, 384] {
        list.routes.truncate(128);
        list.routes
            .extend((0..more).map(|i| route(63 - i % 64, 128 + 2 * i)));
        assert_bad(&list, At::Route(128));
    }
    list.routes.remove(100);
    assert_bad(&list, At::Route(127));
}

/// "the earliest in list order": signals stand before routes, and of each the first is told.
#[test]
fn the_earliest() {
    let mut list = mixed();
    list.signals.truncate(2);
    list.routes = vec![route(0, 0), route(0, 126), route(1, 1_000)];
    assert_bad(&list, At::Route(1));
    list.signals[1].limit = 0;
    assert_bad(&list, At::Signal(1));
    list.signals[0].check = 0;
    assert_bad(&list, At::Signal(0));
    // Of a signal that has no fault itself the route is told last too.
    let mut list = mixed();
    list.routes = vec![route(0, 500)];
    assert_at(&list, [Some(At::Signal(2)), Some(At::Route(0))]);
    list.signals[3].limit = 5_001;
    assert_at(&list, [Some(At::Signal(2)), Some(At::Signal(3))]);
}

/// "after 1-4": a list with a fault of every profile, that is refused by the general judging too.
#[test]
fn the_general_judging_comes_first() {
    let mut bad = mixed();
    bad.signals[0].limit = 0;
    bad.routes = vec![route(0, 1_000)];
    for (form, size, octets) in in_forms(&bad) {
        let refused = |octets: &[u8], number| {
            for profile in PROFILES {
                let answer = judge_profile(profile, octets, form);
                assert_eq!(answer, judge(octets, form));
                assert_eq!(answer.unwrap_err().number, number);
            }
        };
        for length in 0..octets.len() {
            refused(&octets[..length], 1);
        }
        refused(&[&octets[..], &[0]].concat(), 4);
        let last = octets.len();
        let signals = 2 + 2 * 2;
        let since = signals + 2 + 3 * size + 5;
        for (at, octet, number) in [
            (1, 65, 2),
            (signals, 2, 2),
            (last - 8, 3, 2),
            (3, 17, 3),
            (since, 0, 3),
            (last - 3, 1, 3),
        ] {
            let mut octets = octets.clone();
            octets[at] = octet;
            refused(&octets, number);
        }
    }
}

/// What is accepted is accepted by the general judging too, and by the driving trailer's profile what is by the plain coach's.
#[test]
fn made_lists() {
    let mut r = Random::new(19);
    let mut met = [[0; 4]; 2];
    for round in 0..20_000 / EASE {
        let mut list = make::list_in_profile(&mut r, round % 2 == 0);
        for _ in 0..r.of(&[0, 1, 1, 2]) {
            make::near_breach(&mut r, &mut list);
        }
        for (form, size, octets) in in_forms(&list) {
            let general = judge(&octets, form);
            let answers = PROFILES.map(|profile| judge_profile(profile, &octets, form));
            for (i, answer) in answers.into_iter().enumerate() {
                assert_eq!(answer, plain::judge_profile(i == 1, &octets, size));
                assert!(answer.is_err() || answer == general);
                let kind = match (answer, general) {
                    (Ok(_), _) => 0,
                    (Err(_), Err(_)) => 1,
                    (Err(at), Ok(counts)) => {
                        let routes = octets.len() as u64 - 6 * counts.routes as u64;
                        2 + usize::from(at.carried >= routes)
                    }
                };
                met[i][kind] += 1;
            }
            assert!(answers[0].is_err() || answers[1] == answers[0]);
        }
    }
    let least = met.as_flattened().iter().min();
    assert!(least > Some(&(500 / EASE)), "{met:?}");
}

/// Lists of every kind, most of which no controller would take.
#[test]
fn any_lists() {
    let mut r = Random::new(20);
    for round in 0..4_000 / EASE {
        let list = make::list(&mut r, round % 500 == 0);
        for (form, size, octets) in in_forms(&list) {
            for (i, profile) in PROFILES.into_iter().enumerate() {
                let answer = judge_profile(profile, &octets, form);
                assert_eq!(answer, plain::judge_profile(i == 1, &octets, size));
            }
        }
    }
}
