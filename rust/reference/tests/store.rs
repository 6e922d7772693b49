mod support;

use reference::{gap, read, sweep, take, Form};
use support::{plant, r1, refusal, Random, HEAD, HEARD, L, PREVIOUS, SLOT, STAMP, STORE, VEHICLES};

fn telegram(head: u8, length: usize) -> Vec<u8> {
    let mut telegram = vec![7; length];
    telegram[0] = head;
    telegram
}

/// The previous stamp that a taking leaves: that which was the stamp, in a slot that was heard.
fn moved(slot: &[u8]) -> [u8; 4] {
    let stamp = [slot[1], slot[2], slot[3], slot[4]];
    [[0; 4], stamp][usize::from(slot[0] == 1 || slot[0] == 2)]
}

#[test]
fn a_whole_slot_and_no_other_octet() {
    let mut r = Random::new(5);
    for vehicle in 1..=63 {
        for (n, (head, length)) in [(0x11, 128), (0x12, 128), (0x13, 40)]
            .into_iter()
            .enumerate()
        {
            let mut before = r.octets(STORE);
            let first = SLOT * (vehicle - 1);
            before[first] = [before[first], 1, 2][n];
            let mut sent = r.octets(length);
            sent[0] = head;
            let now = r.word() as u32;
            let mut store = before.clone();
            assert_eq!(take(&mut store, vehicle as u64, now, &sent), Ok(()));
            let mut expected = before;
            let previous = moved(&expected[first..]);
            plant(&mut expected, vehicle, 1, now, &sent);
            expected[first + 5..first + 9].copy_from_slice(&previous);
            assert_eq!(store, expected);
        }
    }
}

#[test]
fn refusals_and_their_order() {
    let good = telegram(0x11, 128);
    let try_it = |size: usize, vehicle: u64, telegram: &[u8]| {
        let before = vec![0xA5; size];
        let mut store = before.clone();
        let answer = take(&mut store, vehicle, 1, telegram);
        assert_eq!(store == before, answer.is_err());
        answer.map_or_else(|refusal| refusal, |()| refusal(0, 0))
    };
    assert_eq!(try_it(STORE, 1, &good), refusal(0, 0));
    for size in [0, SLOT, STORE - SLOT, STORE - 1, STORE + 1, STORE + SLOT] {
        assert_eq!(try_it(size, 1, &good), refusal(5, 0));
        assert_eq!(try_it(size, 0, &[]), refusal(5, 0));
    }
    for vehicle in [0, 64, 256 + 1, u64::MAX, (1 << 32) + 1] {
        assert_eq!(try_it(STORE, vehicle, &good), refusal(6, 0));
        assert_eq!(try_it(STORE, vehicle, &[]), refusal(6, 0));
    }
    assert_eq!(try_it(STORE, 1, &[]), refusal(7, 0));
    assert_eq!(try_it(STORE, 1, &[0x11]), refusal(7, 0));
    assert_eq!(try_it(STORE, 1, &[0x21]), refusal(7, 0));
    assert_eq!(try_it(STORE, 1, &[0x21, 1]), refusal(8, 0));
    assert_eq!(try_it(STORE, 1, &telegram(0x04, 128)), refusal(8, 0));
    assert_eq!(try_it(STORE, 1, &[0x10, 1]), refusal(9, 0));
    assert_eq!(try_it(STORE, 1, &telegram(0x14, 128)), refusal(9, 0));
    assert_eq!(try_it(STORE, 1, &[0x11, 1]), refusal(10, 0));
    for length in [2, 39, 40, 41, 127, 128, 129] {
        for head in [0x11, 0x12, 0x13] {
            let right = if head == 0x13 { 40 } else { 128 };
            let expected = if length == right { 0 } else { 10 };
            assert_eq!(
                try_it(STORE, 63, &telegram(head, length)),
                refusal(expected, 0)
            );
        }
    }
}

/// Every heard octet at the ages around 600,000 ms, in every slot, whatever the clock and the telegram's head.
#[test]
fn a_sweep_marks_what_is_heard_and_too_old() {
    let mut r = Random::new(7);
    let ages = [0, 1, 599_999, 600_000, 600_001, 1 << 31, u32::MAX];
    for now in [0, 1, 600_000, 600_001, 1 << 31, u32::MAX, r.word() as u32] {
        for heard in 0..=255 {
            let mut store = r.octets(STORE);
            let mut expected = store.clone();
            for vehicle in 0..63 {
                let age = ages[(vehicle + usize::from(heard)) % ages.len()];
                for octets in [&mut store, &mut expected] {
                    let slot = &mut octets[SLOT * vehicle..SLOT * (vehicle + 1)];
                    slot[HEARD] = heard;
                    slot[STAMP].copy_from_slice(&now.wrapping_sub(age).to_be_bytes());
                }
                if heard == 1 && age > 600_000 {
                    expected[SLOT * vehicle + HEARD] = 2;
                }
            }
            assert_eq!(sweep(&mut store, now), Ok(()));
            assert_eq!(store, expected);
        }
    }
}

#[test]
fn a_sweep_is_refused_by_the_length_alone() {
    for size in [0, SLOT, STORE - SLOT, STORE - 1, STORE + 1, STORE + SLOT] {
        let mut store = vec![1; size];
        assert_eq!(sweep(&mut store, u32::MAX), Err(refusal(5, 0)));
        assert_eq!(store, vec![1; size]);
    }
}

/// A coach that sends once and is parked for three turns of the counter, swept every half turn.
#[test]
fn old_signals_stay_too_old_as_the_counter_comes_round() {
    let mut unlimited = L;
    unlimited[12..16].fill(0);
    let mut store = vec![0; STORE];
    take(&mut store, 1, 0, &r1(0x10, 0x40)).unwrap();
    let unswept = store.clone();
    for half in 1..=6u64 {
        let (swept, later) = (half << 31, (half << 31) + 1_000);
        sweep(&mut store, swept as u32).unwrap();
        let reason = |list: &[u8], store: &[u8]| {
            read(list, Form::One, store, later as u32, 1, 0)
                .unwrap()
                .reason
        };
        assert_eq!(reason(&L, &store), 3);
        assert_eq!(reason(&unlimited, &store), 0);
        // What the coach showed: live again after each whole turn.
        assert_eq!(reason(&L, &unswept), if half % 2 == 0 { 0 } else { 3 });
    }
    take(&mut store, 1, 7, &r1(0x10, 0x40)).unwrap();
    assert_eq!((store[HEARD], store[HEAD]), (1, 0x11));
    assert_eq!(read(&L, Form::One, &store, 5_007, 1, 0).unwrap().reason, 0);
    assert_eq!(read(&L, Form::One, &store, 5_008, 1, 0).unwrap().reason, 3);
}

/// A slot with every heard octet, whatever its telegram's head: what a taking moves, and what the gap is before and after.
#[test]
fn a_taking_moves_the_stamp_of_what_was_heard() {
    let mut r = Random::new(11);
    for heard in 0..=255 {
        for head in [0x11, 0x21, r.word() as u8] {
            let (stamp, previous, now) = (r.word() as u32, r.word() as u32, r.word() as u32);
            let mut store = r.octets(STORE);
            let vehicle = 1 + r.below(VEHICLES as u64) as usize;
            plant(&mut store, vehicle, heard, stamp, &[head]);
            let slot = SLOT * (vehicle - 1)..SLOT * vehicle;
            store[slot.clone()][PREVIOUS].copy_from_slice(&previous.to_be_bytes());
            let was = heard == 1 || heard == 2;
            let gap_before = if was { stamp.wrapping_sub(previous) } else { 0 };
            assert_eq!(gap(&store, vehicle as u64), Ok(gap_before));
            take(&mut store, vehicle as u64, now, &r1(0x10, 0x40)).unwrap();
            let moved = if was { stamp } else { 0 };
            assert_eq!(store[slot][PREVIOUS], moved.to_be_bytes());
            assert_eq!(gap(&store, vehicle as u64), Ok(now.wrapping_sub(moved)));
        }
    }
}

/// Arrivals of two vehicles, at times refused, with sweeps between that expire them or not: the gap is that of the last two.
#[test]
fn the_gap_is_between_the_last_two_arrivals() {
    let mut r = Random::new(13);
    for _ in 0..200 {
        let mut store = vec![0; STORE];
        let (mut arrivals, mut now) = ([[0u32; 2]; 2], r.word() as u32);
        for _ in 0..40 {
            now = now.wrapping_add(r.of(&[0, 1, 100, 700_000, 1 << 31, u32::MAX]));
            let vehicle = r.below(2) as usize;
            match r.below(6) {
                0 => sweep(&mut store, now).unwrap(),
                1 => drop(take(&mut store, 1 + vehicle as u64, now, &[0x14; 128]).unwrap_err()),
                _ => {
                    take(&mut store, 1 + vehicle as u64, now, &r1(0x10, 0x40)).unwrap();
                    arrivals[vehicle] = [arrivals[vehicle][1], now];
                }
            }
            for (vehicle, [one, two]) in arrivals.into_iter().enumerate() {
                assert_eq!(gap(&store, 1 + vehicle as u64), Ok(two.wrapping_sub(one)));
            }
        }
    }
}

/// The store of before C-16 had 8,379 octets, and is refused everywhere.
#[test]
fn other_lengths_and_vehicles() {
    let old = 63 * (SLOT - 4);
    assert_eq!((old, STORE), (8_379, 8_631));
    for size in [
        0,
        SLOT,
        old,
        STORE - SLOT,
        STORE - 1,
        STORE + 1,
        STORE + SLOT,
    ] {
        let mut store = vec![1; size];
        for vehicle in [0, 1, 63, 64] {
            assert_eq!(gap(&store, vehicle), Err(refusal(5, 0)));
        }
        assert_eq!(take(&mut store, 1, 0, &r1(0, 0)), Err(refusal(5, 0)));
        assert_eq!(read(&L, Form::One, &store, 0, 1, 0), Err(refusal(5, 0)));
        assert_eq!(sweep(&mut store, 0), Err(refusal(5, 0)));
    }
    for vehicle in [0, 64, 256 + 1, u64::MAX, (1 << 32) + 1] {
        assert_eq!(gap(&[1; STORE], vehicle), Err(refusal(6, 0)));
    }
}
