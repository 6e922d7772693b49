mod support;

use reference::{read, Form, Reading};
use support::{make, plain, plant, r1, refusal, Random, EASE, L, STORE};

#[test]
fn refusals_and_their_order() {
    let store = [0; STORE];
    assert_eq!(read(&L[..43], Form::One, &[], 0, 0, 9), Err(refusal(1, 36)));
    assert_eq!(read(&L, Form::One, &[], 0, 0, 9), Err(refusal(5, 0)));
    assert_eq!(read(&L, Form::One, &store, 0, 0, 9), Err(refusal(6, 0)));
    assert_eq!(read(&L, Form::One, &store, 0, 64, 0), Err(refusal(6, 0)));
    assert_eq!(
        read(&L, Form::One, &store, 0, u64::MAX, 0),
        Err(refusal(6, 0))
    );
    assert_eq!(read(&L, Form::One, &store, 0, 1, 1), Err(refusal(11, 0)));
    assert_eq!(
        read(&L, Form::One, &store, 0, 1, u64::MAX),
        Err(refusal(11, 0))
    );
    assert_eq!(
        read(&L, Form::One, &store, 0, 1, 1 << 32),
        Err(refusal(11, 0))
    );
    assert_eq!(
        read(&[0; 8], Form::One, &store, 0, 1, 0),
        Err(refusal(11, 0))
    );
    assert_eq!(
        read(&L, Form::One, &store, 0, 63, 0),
        Ok(Reading {
            value: 0,
            reason: 2
        })
    );
}

#[test]
fn heard_and_head() {
    let mut store = vec![0; STORE];
    let mut telegram = r1(0x10, 0x40);
    for heard in 0..=255u8 {
        for head in 0..=255u8 {
            telegram[0] = head;
            plant(&mut store, 1, heard, 0, &telegram);
            let reason = match (heard, head) {
                (1, 0x11) => 0,
                (1, 0x12 | 0x13) => 4,
                (2, 0x11..=0x13) => 3,
                _ => 2,
            };
            assert_eq!(read(&L, Form::One, &store, 0, 1, 0).unwrap().reason, reason);
        }
    }
}

#[test]
fn version_0_is_read_as_1() {
    let mut store = vec![0; STORE];
    let mut telegram = r1(0x10, 0);
    let mut list = L;
    for since in 1..=255u8 {
        list[11] = since;
        for version in 0..=255u8 {
            telegram[1] = version;
            plant(&mut store, 1, 1, 0, &telegram);
            let reason = if since > version.max(1) { 5 } else { 0 };
            assert_eq!(
                read(&list, Form::One, &store, 0, 1, 0).unwrap().reason,
                reason
            );
        }
    }
}

#[test]
fn limit_0_means_none() {
    let mut list = L;
    list[12..16].fill(0);
    let mut store = vec![0; STORE];
    plant(&mut store, 1, 1, 0, &r1(0x10, 0));
    assert_eq!(
        read(&list, Form::One, &store, u32::MAX, 1, 0)
            .unwrap()
            .reason,
        0
    );
}

/// "signals with none read as before": whatever else is wrong with the telegram, expired or not.
#[test]
fn expired_with_limit_0_is_read_as_before() {
    let mut list = L;
    list[12..16].fill(0);
    let mut store = vec![0; STORE];
    for octet_41 in [0, 0x10, 0x20, 0x30] {
        for octet_54 in (0..16).map(|code| code << 4) {
            let [heard, expired] = [1, 2].map(|heard| {
                plant(&mut store, 1, heard, 0, &r1(octet_41, octet_54));
                read(&list, Form::One, &store, u32::MAX, 1, 0)
            });
            assert_eq!(heard, expired);
        }
    }
}

/// Every signal of made lists, for some vehicles of made stores.
#[test]
fn made_lists_and_stores() {
    let mut r = Random::new(6);
    let mut met = [0; 9];
    for round in 0..4_000 / EASE {
        let list = make::list(&mut r, round % 100 == 0);
        let octets = list.octets();
        let now = r.of(&[0, 50, 5_000, 4_000_000_000]);
        let store = make::store(&mut r, now);
        for signal in 0..list.signals.len() as u64 {
            for vehicle in [1, 63, r.within(2, 62)] {
                let ours = read(&octets, Form::One, &store, now, vehicle, signal).unwrap();
                assert_eq!(ours, plain::read(&list, &store, now, vehicle, signal));
                met[usize::from(ours.reason)] += 1;
            }
        }
    }
    assert!(met.iter().all(|&count| count > 1_000 / EASE), "{met:?}");
}
