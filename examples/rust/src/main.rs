//! The bench example of document 01 in Rust: judges the list L, takes vehicle 1's telegram, reads the voltage selection and marshals it.

use dustferrule::{find_signal, judge, marshal, read, take, Error, Form, STORE_OCTETS};

/// Voltage selection (4.3): R1 octet 54 bits 0-3, check octet 41 bits 2/3, known codes 0-6 and 15, limit 5,000 ms, routed to bits 0-3.
#[rustfmt::skip]
const LIST: [u8; 44] = [
    0x00, 0x01, 0x01, 0x42,
    0x00, 0x01, 0x01, 0xA8, 0x04, 0x01, 0x01, 0x01, 0x00, 0x00, 0x13, 0x88, 0x00, 0x00, 0x00, 0x00, 0x00, 0x00,
    0x00, 0x02, 0x00, 0x00, 0x00, 0x00, 0x00, 0x06, 0x00, 0x00, 0x00, 0x0F, 0x00, 0x0F,
    0x00, 0x01, 0x00, 0x00, 0x01, 0x00, 0x00, 0x00,
];

fn bench() -> Result<(), Error> {
    let mut telegram = [0; 128];
    telegram[0] = 0x11; // R1
    telegram[1] = 1; // version 1
    telegram[41 - 1] = 0x10; // the check of 4.3: ok
    telegram[54 - 1] = 0x40; // 4.3: 4

    let counts = judge(&LIST, Form::One)?;
    println!(
        "list ok checks={} signals={} codes={} routes={} version={}",
        counts.checks, counts.signals, counts.codes, counts.routes, counts.version
    );

    // A store of zeros has heard nobody.
    let mut store = [0; STORE_OCTETS];
    take(&mut store, 1, 1_000, &telegram)?;

    // The signal by its place: R1 octet 54 bit 0.
    let voltage = find_signal(&LIST, Form::One, 1, 8 * (54 - 1))?;

    // At the age of 5,000 ms the value is live, a millisecond later it is replaced.
    for clock in [6_000, 6_001] {
        let reading = read(&LIST, Form::One, &store, clock, 1, voltage)?;
        let reason = reading.reason;
        println!(
            "value {} reason {} {reason}",
            reading.value,
            reason.number()
        );
    }

    // The route writes its four bits and leaves the others.
    let mut data = [0xAB];
    let live = marshal(&LIST, Form::One, &store, 6_000, &mut data)?;
    println!("data {:02X} live {live}", data[0]);

    // A list that lacks its last octet is refused, and the refusal says where.
    judge(&LIST[..43], Form::One).map(|_| ())
}

fn main() {
    if let Err(error) = bench() {
        println!("{error}");
    }
}
