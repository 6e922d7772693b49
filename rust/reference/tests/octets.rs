mod support;

use reference::{read_field, write_field};
use support::plain::{get, put};
use support::Random;

/// Every start and width in buffers of 0 to 20 octets, against bit by bit.
#[test]
fn every_field_of_short_buffers() {
    let mut r = Random::new(1);
    for length in 0..=20 {
        let octets = r.octets(length);
        for width in 1..=64 {
            for start in 0..=(8 * length).saturating_sub(width) {
                if start + width > 8 * length {
                    continue;
                }
                assert_eq!(
                    read_field(&octets, start, width),
                    get(&octets, start, width)
                );
                let value = r.word();
                let (mut ours, mut plain) = (octets.clone(), octets.clone());
                write_field(&mut ours, start, width, value);
                put(&mut plain, start, width, value);
                assert_eq!(ours, plain, "length {length} start {start} width {width}");
            }
        }
    }
}

#[test]
fn a_field_not_wholly_there_is_left_alone() {
    let octets = [0xFF; 9];
    for (start, width) in [
        (0, 0),
        (0, 65),
        (9, 64),
        (72, 1),
        (71, 2),
        (8, 65),
        (usize::MAX, 1),
        (usize::MAX, 64),
        (usize::MAX - 7, 8),
        (0, usize::MAX),
        (1, usize::MAX),
        (usize::MAX, usize::MAX),
    ] {
        assert_eq!(read_field(&octets, start, width), 0);
        let mut written = octets;
        write_field(&mut written, start, width, 0);
        assert_eq!(written, octets);
    }
    assert_eq!(read_field(&[], 0, 1), 0);
    write_field(&mut [], 0, 1, 1);
}

/// "Bit 0 taken as least significant" is a slip.
#[test]
fn bit_0_is_most_significant() {
    assert_eq!(read_field(&[0x80], 0, 1), 1);
    assert_eq!(read_field(&[0x12, 0x34], 4, 8), 0x23);
    let mut octets = [0; 2];
    write_field(&mut octets, 4, 8, 0xFAB);
    assert_eq!(octets, [0x0A, 0xB0]);
}
