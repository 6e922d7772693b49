//! "Bench examples".

mod support;

use reference::{
    check_place, judge, marshal, read, show, take, Counts, Form, Kind, Reading, Shown, ShownReading,
};
use support::{list_v, r1, raw_at, refusal, L, STORE};

/// "Vehicle 1 sends R1, version 1", with octets 41 and 54 as given.
fn heard(stamp: u32, octet_41: u8, octet_54: u8) -> Vec<u8> {
    let mut store = vec![0; STORE];
    take(&mut store, 1, stamp, &r1(octet_41, octet_54)).unwrap();
    store
}

fn reading(store: &[u8], now: u32) -> (u64, u8) {
    let Reading { value, reason } = read(&L, Form::One, store, now, 1, 0).unwrap();
    (value, reason)
}

/// A raw value of 16 bits, live.
fn shown(raw: u16, kind: Kind) -> Shown {
    let answer = show(&list_v(16, 0), Form::One, &raw_at(raw), 5_000, 1, 0, kind);
    let ShownReading { shown, reason } = answer.unwrap();
    assert_eq!(reason, 0);
    shown
}

#[test]
fn list_l_is_judged() {
    let counts = Counts {
        checks: 1,
        signals: 1,
        codes: 2,
        routes: 1,
        version: 1,
    };
    assert_eq!(judge(&L, Form::One), Ok(counts));
}

#[test]
fn marked_readings() {
    let table: [(&str, u32, u32, u8, u8, u64, u8); 9] = [
        ("a", 1_000, 6_000, 0x10, 0x40, 4, 0),
        ("b", 1_000, 6_001, 0x10, 0x40, 0, 3),
        ("c", 1_000, 6_000, 0x20, 0x40, 4, 1),
        ("d", 1_000, 6_000, 0x00, 0x40, 0, 6),
        ("e", 1_000, 6_000, 0x30, 0x40, 0, 7),
        ("f", 1_000, 6_000, 0x10, 0x70, 0, 8),
        ("g", 1_000, 6_000, 0x10, 0xF0, 15, 0),
        ("h", 4_294_967_000, 4_000, 0x10, 0x40, 4, 0),
        ("i", 1_000, 999, 0x10, 0x40, 0, 3),
    ];
    for (case, stamp, now, octet_41, octet_54, value, reason) in table {
        assert_eq!(
            reading(&heard(stamp, octet_41, octet_54), now),
            (value, reason),
            "({case})"
        );
    }
}

#[test]
fn h_has_age_4296() {
    let mut list = L;
    let store = heard(4_294_967_000, 0x10, 0x40);
    list[12..16].copy_from_slice(&4_296u32.to_be_bytes());
    assert_eq!(
        read(&list, Form::One, &store, 4_000, 1, 0),
        Ok(Reading {
            value: 4,
            reason: 0
        })
    );
    list[12..16].copy_from_slice(&4_295u32.to_be_bytes());
    assert_eq!(
        read(&list, Form::One, &store, 4_000, 1, 0),
        Ok(Reading {
            value: 0,
            reason: 3
        })
    );
}

#[test]
fn j_and_k_marshalled() {
    let mut data = [0xAB];
    assert_eq!(
        marshal(&L, Form::One, &heard(0, 0x10, 0x40), 5_000, &mut data),
        Ok(1)
    );
    assert_eq!(data, [0x4B]);
    let mut data = [0xAB];
    assert_eq!(marshal(&L, Form::One, &[0; STORE], 5_000, &mut data), Ok(0));
    assert_eq!(data, [0x0B]);
}

#[test]
fn l_as_speed() {
    assert_eq!(shown(16_384, Kind::Speed), Shown::Speed(256.0));
}

#[test]
fn also_run() {
    assert_eq!(check_place(8 * 61 + 4), Ok(8 * 41 + 2));
    assert_eq!(check_place(8 * 45), Err(refusal(27, 0)));
    assert_eq!(shown(1, Kind::Speed), Shown::Speed(0.015625));
    assert_eq!(
        shown(49_152, Kind::SignedPercentage),
        Shown::Percentage(-100.0)
    );
    assert_eq!(judge(&L[..43], Form::One), Err(refusal(1, 36)));
    let mut more = L.to_vec();
    more.push(0);
    assert_eq!(judge(&more, Form::One), Err(refusal(4, 44)));
    assert_eq!(judge(&[], Form::One), Err(refusal(1, 0)));
}

/// "Slips that have been shipped".
#[test]
fn slips() {
    // "Reserved voltage codes 7-13 passed through."
    for code in 0..16u8 {
        let expected = if (7..15).contains(&code) {
            (0, 8)
        } else {
            (u64::from(code), 0)
        };
        assert_eq!(reading(&heard(0, 0x10, code << 4), 0), expected);
    }
    // "An R1 signal read from an R2 telegram because the octet is there."
    let mut r2 = r1(0x10, 0x40);
    r2[0] = 0x12;
    let mut store = vec![0; STORE];
    take(&mut store, 1, 0, &r2).unwrap();
    assert_eq!(reading(&store, 0), (0, 4));
    // "Reading a newer signal out of an old telegram's blocked bits."
    let mut list = L;
    list[11] = 2;
    assert_eq!(
        read(&list, Form::One, &heard(0, 0x10, 0x40), 0, 1, 0),
        Ok(Reading {
            value: 0,
            reason: 5
        })
    );
}
