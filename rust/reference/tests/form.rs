//! C-18: lists of form 2, their serial numbers, and the moves from one form to the other.

mod support;

use reference::{
    extends, find_signal, judge, marshal, read, serial, signal_entry, to_form_1, to_form_2,
    Extends, Form,
};

use support::{make, plain, refusal, widened, Random, EASE, L, SERIAL_SIZE, SIGNAL_SIZE};

/// L in form 2 with serial number 4.3, packed.
fn wide_l() -> Vec<u8> {
    [&L[..22], &[0x40, 0xC0], &L[22..]].concat()
}

#[test]
fn the_list_l_in_form_2() {
    let wide = wide_l();
    assert_eq!(judge(&wide, Form::Two), judge(&L, Form::One));
    assert_eq!(serial(&wide, Form::Two, 0), Ok(0x40C0));
    assert_eq!(serial(&wide, Form::Two, 1), Err(refusal(11, 0)));
    assert_eq!(serial(&wide, Form::Two, u64::MAX), Err(refusal(11, 0)));
    assert_eq!(serial(&L, Form::One, 0), Ok(0));
    assert_eq!(serial(&L, Form::One, 1), Err(refusal(11, 0)));
    assert_eq!(extends(&L, Form::One, &wide, Form::Two), Extends::Yes);
    assert_eq!(extends(&wide, Form::Two, &L, Form::One), Extends::Yes);
}

/// Offsets follow the longer entries; a list that ends inside a serial number ends inside the signals.
#[test]
fn every_head_of_l_in_form_2() {
    let wide = wide_l();
    for length in 0..wide.len() {
        let at = match length {
            0..=3 => 0,
            4..=23 => 4,
            24..=37 => 24,
            _ => 38,
        };
        let refused = refusal(1, at);
        assert_eq!(judge(&wide[..length], Form::Two), Err(refused));
        assert_eq!(serial(&wide[..length], Form::Two, 9), Err(refused));
        let mut out = [0xA5; L.len()];
        assert_eq!(to_form_1(&wide[..length], &mut out), Err(refused));
        assert_eq!(out, [0xA5; L.len()]);
    }
    let more = [&wide[..], &[0]].concat();
    assert_eq!(judge(&more, Form::Two), Err(refusal(4, 46)));
}

#[test]
fn moves_of_l() {
    let mut wide = [0xA5; L.len() + SERIAL_SIZE];
    for len in [0, L.len(), L.len() + 1] {
        let refused = to_form_2(&L, &mut wide[..len]);
        assert_eq!(refused, Err(refusal(33, 0)));
        assert_eq!(wide, [0xA5; L.len() + SERIAL_SIZE]);
    }
    assert_eq!(to_form_2(&L, &mut wide), Ok(()));
    assert_eq!(wide.to_vec(), widened(&L, 1, &[[0; SERIAL_SIZE]]));
    let mut longer = [0xA5; L.len() + SERIAL_SIZE + 1];
    assert_eq!(to_form_2(&L, &mut longer), Err(refusal(33, 0)));

    let mut back = [0xA5; L.len()];
    assert_eq!(to_form_1(&wide, &mut back[..43]), Err(refusal(33, 0)));
    assert_eq!(to_form_1(&wide, &mut longer), Err(refusal(33, 0)));
    assert_eq!(to_form_1(&wide, &mut back), Ok(()));
    assert_eq!(back, L);
    // 32 comes before 33; either octet sets the number.
    for set in [22, 23] {
        let mut wide = wide;
        wide[set] = 1;
        let mut out = [0xA5; L.len()];
        assert_eq!(to_form_1(&wide, &mut out), Err(refusal(32, 0)));
        assert_eq!(to_form_1(&wide, &mut out[..3]), Err(refusal(32, 0)));
        assert_eq!(out, [0xA5; L.len()]);
    }
}

/// Octets with something done to them: cut, one more, a bit or an octet another.
fn spoiled(r: &mut Random, octets: &[u8]) -> Vec<u8> {
    let mut octets = octets.to_vec();
    let at = r.below(octets.len() as u64) as usize;
    match r.below(4) {
        0 => octets.truncate(at),
        1 => octets.push(r.word() as u8),
        2 => octets[at] ^= 1 << r.below(8),
        _ => octets[at] = r.of(&[0, 1, 2, 3, 16, 17, 63, 64, 65, 255]),
    }
    octets
}

/// Each refusal by its number and its offset, in lists of form 2 and of form 1 taken in form 2.
#[test]
fn spoiled_lists_in_form_2() {
    let mut r = Random::new(33);
    let mut refused = [0; 5];
    for round in 0..20_000 / EASE {
        let list = make::list(&mut r, round % 100 == 0);
        let plain_octets = list.octets();
        let serials = vec![[0x40, 0xC0]; list.signals.len()];
        let wide = widened(&plain_octets, list.checks.len(), &serials);
        for octets in [spoiled(&mut r, &wide), plain_octets] {
            let answer = judge(&octets, Form::Two);
            let wanted = plain::judge_of(&octets, SIGNAL_SIZE + SERIAL_SIZE);
            assert_eq!(answer, wanted, "{octets:02X?}");
            if let Err(refusal) = answer {
                refused[usize::from(refusal.number)] += 1;
            }
        }
    }
    assert!(refused[1..].iter().all(|&met| met > 0), "{refused:?}");
}

/// Whatever the serial numbers are, every answer is that of form 1; there and back gives the same octets.
#[test]
fn made_lists_in_both_forms() {
    let mut r = Random::new(18);
    for round in 0..2_000 / EASE {
        let list = make::list(&mut r, round % 50 == 0);
        let (plain, signals) = (list.octets(), list.signals.len());
        let serials: Vec<[u8; SERIAL_SIZE]> = (0..signals)
            .map(|_| (r.word() as u16).to_be_bytes())
            .collect();
        let wide = widened(&plain, list.checks.len(), &serials);
        assert_eq!(judge(&wide, Form::Two), judge(&plain, Form::One));
        let (now, store) = (4_000, make::store(&mut r, 4_000));
        for (number, octets) in serials.iter().enumerate() {
            let (signal, s) = (number as u64, &list.signals[number]);
            let given = u16::from_be_bytes(*octets);
            assert_eq!(serial(&wide, Form::Two, signal), Ok(given));
            assert_eq!(
                signal_entry(&wide, Form::Two, signal),
                signal_entry(&plain, Form::One, signal)
            );
            let found = find_signal(&wide, Form::Two, s.kind, s.start);
            assert_eq!(found, Ok(signal));
            assert_eq!(
                read(&wide, Form::Two, &store, now, 1, signal),
                read(&plain, Form::One, &store, now, 1, signal)
            );
        }
        let (mut ours, mut theirs) = ([0; 256], [0; 256]);
        assert_eq!(
            marshal(&wide, Form::Two, &store, now, &mut ours),
            marshal(&plain, Form::One, &store, now, &mut theirs)
        );
        assert_eq!(ours, theirs);
        let zeros = vec![[0; SERIAL_SIZE]; signals];
        let mut moved = vec![0xA5; wide.len()];
        assert_eq!(to_form_2(&plain, &mut moved), Ok(()));
        assert_eq!(moved, widened(&plain, list.checks.len(), &zeros));
        let mut back = vec![0xA5; plain.len()];
        assert_eq!(to_form_1(&moved, &mut back), Ok(()));
        assert_eq!(back, plain);
        let refused = serials.iter().any(|serial| *serial != [0; SERIAL_SIZE]);
        assert_eq!(to_form_1(&wide, &mut back).is_err(), refused);
    }
}
