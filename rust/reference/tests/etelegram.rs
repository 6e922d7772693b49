mod support;

use reference::{e_answer, e_read, EReading};
use support::refusal;

const REQUESTS: &str =
    "1007 1012 1013 1015 2001 4002 4007 4009 4011 4013 4015 4020 4047 5003 5007 5009 6002 \
                        7001 8002 8003 8007 8008 8009 8010 9001";

fn requests() -> Vec<u16> {
    REQUESTS
        .split(' ')
        .map(|code| u16::from_str_radix(code, 16).unwrap())
        .collect()
}

fn telegram(code: u16, status: u8, length: usize) -> Vec<u8> {
    let mut telegram = vec![0xC3; length.max(9)];
    telegram[6..8].copy_from_slice(&code.to_be_bytes());
    telegram[8] = status;
    telegram.truncate(length);
    telegram
}

#[test]
fn every_code() {
    let requests = requests();
    assert_eq!(requests.len(), 25);
    for code in 0..=65_535u16 {
        let request = requests.contains(&code);
        let report = requests.iter().any(|request| request + 0x0A00 == code);
        assert!(!(request && report));
        let sent = telegram(code, code as u8, 9);
        let mut out = [0x5A; 11];
        let answer = e_answer(&sent, &[1, 2, 3, 4, 5, 6], 0xFE, &mut out);
        if request || report {
            assert_eq!(
                e_read(&sent),
                Ok(EReading {
                    code,
                    report,
                    status: code as u8
                })
            );
        } else {
            assert_eq!(e_read(&sent), Err(refusal(22, 0)));
        }
        if request {
            let [c0, c1] = (code + 0x0A00).to_be_bytes();
            assert_eq!(answer, Ok(()));
            assert_eq!(out, [1, 2, 3, 4, 5, 6, c0, c1, 0xFE, 0x5A, 0x5A]);
        } else {
            assert_eq!(answer, Err(refusal(if report { 23 } else { 22 }, 0)));
            assert_eq!(out, [0x5A; 11]);
        }
    }
}

#[test]
fn lengths() {
    for length in 0..1100 {
        let sent = telegram(0x8010, 3, length);
        let expected = EReading {
            code: 0x8010,
            report: false,
            status: 3,
        };
        let good = (9..=1024).contains(&length);
        assert_eq!(
            e_read(&sent),
            if good {
                Ok(expected)
            } else {
                Err(refusal(21, 0))
            }
        );
    }
}

#[test]
fn answers_and_the_order_of_refusals() {
    let mut out = [0x5A; 9];
    assert_eq!(e_answer(&[0; 8], &[], 0, &mut []), Err(refusal(21, 0)));
    assert_eq!(e_answer(&[0; 9], &[], 0, &mut []), Err(refusal(22, 0)));
    assert_eq!(
        e_answer(&telegram(0x9A01, 0, 9), &[], 0, &mut []),
        Err(refusal(23, 0))
    );
    assert_eq!(
        e_answer(&telegram(0x9001, 0, 9), &[], 0, &mut []),
        Err(refusal(24, 0))
    );
    assert_eq!(
        e_answer(&telegram(0x9001, 0, 9), &[0; 5], 0, &mut out),
        Err(refusal(24, 0))
    );
    assert_eq!(
        e_answer(&telegram(0x9001, 0, 9), &[0; 7], 0, &mut out),
        Err(refusal(24, 0))
    );
    assert_eq!(
        e_answer(&telegram(0x9001, 0, 9), &[0; 6], 0, &mut out[..8]),
        Err(refusal(25, 0))
    );
    assert_eq!(out, [0x5A; 9]);
    assert_eq!(
        e_answer(&telegram(0x9001, 0, 1024), &[9; 6], 7, &mut out),
        Ok(())
    );
    assert_eq!(out, [9, 9, 9, 9, 9, 9, 0x9A, 0x01, 7]);
}
