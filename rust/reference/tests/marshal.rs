mod support;

use reference::{marshal, Form};
use support::{make, plain, plant, r1, refusal, Random, EASE, L, STORE};

#[test]
fn refusals_and_their_order() {
    let mut data = [0xAB; 3];
    assert_eq!(
        marshal(&[], Form::One, &[], 0, &mut data),
        Err(refusal(1, 0))
    );
    assert_eq!(marshal(&L, Form::One, &[], 0, &mut []), Err(refusal(5, 0)));
    assert_eq!(
        marshal(&L, Form::One, &[0; STORE], 0, &mut []),
        Err(refusal(12, 0))
    );
    assert_eq!(marshal(&[0; 8], Form::One, &[0; STORE], 0, &mut []), Ok(0));
    assert_eq!(data, [0xAB; 3]);
    // A field of 4 bits at bit 5 ends in the second octet.
    let mut list = L;
    list[43] = 5;
    assert_eq!(
        marshal(&list, Form::One, &[0; STORE], 0, &mut data[..1]),
        Err(refusal(12, 0))
    );
    assert_eq!(data, [0xAB; 3]);
    assert_eq!(
        marshal(&list, Form::One, &[0; STORE], 0, &mut data[..2]),
        Ok(0)
    );
    assert_eq!(data, [0xA8, 0x2B, 0xAB]);
}

/// C-15: "replacements keep 6 octets, with leading zeros above", from a bit that starts no octet too.
#[test]
fn a_wide_replacement_leads_with_zeros() {
    let signal = plain::Signal {
        start: 424,
        width: 64,
        kind: 1,
        check: 0,
        since: 1,
        limit: 0,
        replacement: 0x0102_0304_0506,
    };
    let route = plain::Route {
        signal: 0,
        vehicle: 1,
        zero: 0,
        start: 4,
    };
    let list = plain::List {
        signals: vec![signal],
        routes: vec![route],
        ..plain::List::default()
    };
    let mut data = [0xFF; 9];
    assert_eq!(
        marshal(&list.octets(), Form::One, &[0; STORE], 0, &mut data),
        Ok(0)
    );
    assert_eq!(data, [0xF0, 0, 0, 0x10, 0x20, 0x30, 0x40, 0x50, 0x6F]);
}

#[test]
fn made_lists_and_stores() {
    let mut r = Random::new(7);
    let (mut refused, mut live, mut routes) = (0, 0, 0);
    for round in 0..20_000 / EASE as u64 {
        let list = make::list(&mut r, round % 50 == 0);
        let octets = list.octets();
        let now = r.of(&[0, 50, 5_000, 4_000_000_000]);
        let store = make::store(&mut r, now);
        let end = list
            .routes
            .last()
            .map_or(0, |l| l.start + list.signals[l.signal as usize].width);
        let length = match r.below(3) {
            0 => r.below(260),
            1 => end.div_ceil(8) + r.below(3),
            _ => (end.div_ceil(8)).saturating_sub(r.below(3)),
        };
        let before = r.octets(length as usize);
        let (mut ours, mut expected) = (before.clone(), before);
        let answer = marshal(&octets, Form::One, &store, now, &mut ours);
        assert_eq!(answer, plain::marshal(&list, &store, now, &mut expected));
        assert_eq!(ours, expected);
        match answer {
            Ok(count) => {
                live += count;
                routes += list.routes.len() as u64;
            }
            Err(_) => refused += 1,
        }
    }
    assert!(
        refused > 1_000 / EASE as u64 && live > 10_000 / EASE as u64 && routes > 2 * live,
        "{refused} {live} {routes}"
    );
}

/// "A field routed from one vehicle depends on no other vehicle's slot."
#[test]
fn no_other_slot_is_looked_at() {
    let mut store = vec![0xFF; STORE];
    plant(&mut store, 1, 1, 0, &r1(0x10, 0x60));
    let mut data = [0xFF];
    assert_eq!(marshal(&L, Form::One, &store, 0, &mut data), Ok(1));
    assert_eq!(data, [0x6F]);
}
