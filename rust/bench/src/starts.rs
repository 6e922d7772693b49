//! The shapes that are as the bench has its lists, at any part of the greatest size, and those of the greatest size that a search begins with.

use crate::lists::{self, NOW, STAMP};
use crate::shape::{room, Field, Heard, Marks, Of, Scene, Shape, Values, Way, COMMON_END, DOORS};
use reference::VEHICLES;

const LIMIT: u32 = 5_000;

impl Shape {
    /// As [`lists::list`] or [`lists::narrow`], of so many eighths of its size.
    pub fn even(of: Of, eighths: usize) -> Shape {
        match of {
            Of::Profile => narrow(8 * eighths),
            _ => units(of, 8 * eighths),
        }
    }

    /// Every section at its limit.
    pub fn greatest(of: Of) -> Shape {
        match of {
            Of::Profile => full_profile(),
            _ => units(of, lists::MOST_UNITS),
        }
    }

    fn new(of: Of, checks: Vec<u16>, fields: Vec<Field>, ways: Vec<Way>) -> Shape {
        let scene = |seed| Scene {
            kind: 1,
            version: 3,
            values: Values::Even,
            marks: Marks::Even,
            seed,
        };
        let heard = Heard {
            scene: 0,
            heard: 1,
            age: NOW - STAMP,
        };
        Shape {
            of,
            checks,
            signal: fields.len() as u16 - 1,
            fields,
            spread: false,
            ways,
            scenes: [scene(1), scene(2), scene(3), scene(4)],
            slots: vec![heard; VEHICLES],
            vehicle: VEHICLES as u8,
            changed: 2,
            wrong: None,
            train: lists::train(),
            address: 66,
        }
    }
}

/// A field of two bits with two ranges of codes, common and under the first check.
const FIELD: Field = Field {
    kind: 0,
    gap: 0,
    width: 2,
    check: 1,
    since: 1,
    limit: LIMIT,
    replacement: 3,
    ranges: 2,
};

const DOOR: Field = Field {
    width: 1,
    replacement: 0,
    ranges: 1,
    ..FIELD
};

/// Of these signals in turn, every vehicle.
fn ways(signals: impl Iterator<Item = usize>, gap: u8) -> Vec<Way> {
    let way = |(number, signal): (usize, usize)| Way {
        signal: signal as u16,
        vehicle: 1 + (number % VEHICLES) as u8,
        gap: if number == 0 { 0 } else { gap },
    };
    signals.enumerate().map(way).collect()
}

fn units(of: Of, units: usize) -> Shape {
    let place = |number| lists::unit(number, units);
    let common = (0..units).filter(|&number| place(number).0 == 0).count();
    let mut checks: Vec<u16> = (0..units).map(|number| place(number).1 as u16).collect();
    let field = |number: usize| {
        let (unit, kind) = (number / 4, place(number / 4).0);
        Field {
            kind,
            width: lists::WIDTHS[number % 4],
            check: (1 + unit - usize::from(kind) * common) as u8,
            since: 1 + (number % 3) as u8,
            replacement: number as u64 % 4,
            ..FIELD
        }
    };
    let mut fields: Vec<Field> = (0..4 * units).map(field).collect();
    if of == Of::Doors {
        with_doors(&mut checks, &mut fields);
    }
    let signal = move |number| (37 * number + 11) % (4 * units);
    let routed = ways((0..8 * units).map(signal), 1);
    Shape::new(of, checks, fields, routed)
}

/// The doors in place of the last two signals; the common units from there on make room, and as many code entries as there were find room in two
/// others.
fn with_doors(checks: &mut [u16], fields: &mut Vec<Field>) {
    for place in checks.iter_mut() {
        *place += 2 * u16::from((DOORS..COMMON_END).contains(place));
    }
    fields.truncate(fields.len() - 2);
    for (number, field) in fields.iter_mut().enumerate() {
        field.ranges += u16::from(number == 3 || number == 7);
    }
    fields.splice(0..0, [DOOR; 2]);
}

/// The rows of the R1 grouping: check place, first bit, and bit behind the last.
fn rows() -> Vec<(u16, usize, usize)> {
    let mut rows: Vec<(u16, usize, usize)> = vec![];
    for bit in 0..1_024 {
        let Ok(place) = reference::check_place(bit as u64) else {
            continue;
        };
        match rows.last_mut() {
            Some((last, _, end)) if u64::from(*last) == place => *end = bit + 1,
            _ => rows.push((place as u16, bit, bit + 1)),
        }
    }
    rows
}

/// R1 fields at these places, from a bit to before another.
fn grouped(places: impl Iterator<Item = (usize, usize)>) -> Vec<Field> {
    let mut at = usize::from(COMMON_END);
    let field = |(first, end): (usize, usize)| {
        let gap = (first - at) as u16;
        at = end;
        let width = (end - first) as u8;
        Field {
            kind: 1,
            gap,
            width,
            ranges: room(width).min(2),
            ..FIELD
        }
    };
    places.map(field).collect()
}

fn narrow(signals: usize) -> Shape {
    let rows = &rows()[..17 * signals / 64];
    let checks = [16].into_iter().chain(rows.iter().map(|row| row.0));
    let pairs = |&(_, first, _): &(u16, usize, usize)| [(first, first + 2), (first + 2, first + 4)];
    let mut fields = vec![FIELD; signals - 2 * rows.len()];
    fields.extend(grouped(rows.iter().flat_map(pairs)));
    Shape::new(Of::Profile, checks.collect(), fields, ways(0..signals, 0))
}

/// As much as the profile has room for: a signal over each row of the grouping, all others common, of one bit and of four in turn; routes of one bit.
fn full_profile() -> Shape {
    let (rows, common) = (rows(), 64 - 17);
    let checks = (0..common as u16).map(|number| 16 + 2 * number);
    let checks = checks.chain(rows.iter().map(|row| row.0)).collect();
    let field = |number: usize| {
        let width = [1, 4][number % 2];
        Field {
            width,
            check: 1 + number as u8,
            ranges: room(width).min(2),
            ..FIELD
        }
    };
    let mut fields: Vec<Field> = (0..common).map(field).collect();
    fields.extend(grouped(rows.iter().map(|&(_, first, end)| (first, end))));
    let mut left = 512 - fields.iter().map(|field| field.ranges).sum::<u16>();
    for field in &mut fields {
        let more = left.min(room(field.width) - field.ranges);
        field.ranges += more;
        left -= more;
    }
    let routed = ways((0..128).map(|number| 2 * number % 24), 0);
    Shape::new(Of::Profile, checks, fields, routed)
}
