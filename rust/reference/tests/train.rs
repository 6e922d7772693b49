mod support;

use reference::{resolve, Members};
use support::{plain, refusal, Random};

fn check(marks: &[u8], address: u64) -> u8 {
    let ours = resolve(marks, address);
    let expected = plain::resolved(marks, address).map(|met| Members {
        set: met.iter().map(|v| 1 << v).sum(),
        size: met.len() as u32,
    });
    assert_eq!(ours, expected, "{marks:?} {address}");
    ours.map_or_else(|refusal| refusal.number, |_| 0)
}

#[test]
fn small_trains_at_every_address() {
    for a in 0..=255 {
        for address in 0..=300 {
            check(&[a], address);
        }
        for b in 0..32 {
            for address in [0, 1, 2, 3, 63, 64, 65, 66, 67, 68, 70, 92] {
                check(&[a, b], address);
            }
        }
    }
}

#[test]
fn made_trains() {
    let mut r = Random::new(9);
    let mut met = [0; 21];
    for _ in 0..100_000 {
        let length = r.of(&[0, 1, 2, 5, 20, 62, 63, 64, 65, 300]);
        let mut marks: Vec<u8> = (0..length)
            .map(|_| r.of(&[0, 2, 4, 12, 14, 16, 18, 0xE0, 0xE2]))
            .collect();
        if length > 0 {
            for _ in 0..r.below(3) {
                let at = r.below(length) as usize;
                marks[at] = r.word() as u8;
            }
        }
        let address = r.of(&[
            0,
            1,
            2,
            6,
            63,
            64,
            65,
            66,
            67,
            68,
            69,
            70,
            71,
            91,
            92,
            93,
            201,
            u64::MAX,
            1 << 32,
        ]);
        met[usize::from(check(&marks, address))] += 1;
    }
    for number in [0, 17, 18, 19, 20] {
        assert!(met[number] > 1_000, "{met:?}");
    }
}

#[test]
fn order() {
    assert_eq!(resolve(&[], 0), Err(refusal(17, 0)));
    assert_eq!(resolve(&[1; 64], 0), Err(refusal(17, 0)));
    assert_eq!(resolve(&[1, 1], 0), Err(refusal(18, 0)));
    assert_eq!(resolve(&[8], 64), Err(refusal(18, 0)));
    assert_eq!(resolve(&[13], 64), Err(refusal(18, 0)));
    assert_eq!(resolve(&[12], 0), Err(refusal(19, 0)));
    assert_eq!(resolve(&[12], 64), Err(refusal(20, 0)));
    assert_eq!(resolve(&[12], 2), Err(refusal(20, 0)));
    assert_eq!(resolve(&[0; 63], 66), Ok(Members { set: !1, size: 63 }));
    assert_eq!(
        resolve(&[0; 63], 63),
        Ok(Members {
            set: 1 << 63,
            size: 1
        })
    );
}
