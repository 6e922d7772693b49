//! Changes of a shape, for a search. Each keeps the counts of the list; what then does not fit, or is refused, is not laid out.

use crate::random::Random;
use crate::shape::{room, Marks, Shape, Values, COMMON_END};
use reference::VEHICLES;
use std::ops::Range;

/// What a call asks: a search changes nothing else.
#[derive(Clone, Copy, PartialEq)]
pub enum Asks {
    List,
    Store,
    Train,
    All,
}

impl Asks {
    /// Of the changes below.
    fn changes(self) -> Range<usize> {
        match self {
            Asks::List => 0..13,
            Asks::Store => 13..17,
            Asks::Train => 17..18,
            Asks::All => 0..20,
        }
    }
}

/// Another choice, or some.
pub fn change(shape: &mut Shape, random: &mut Random, asks: Asks) {
    let changes = asks.changes();
    match changes.start + random.below(changes.len()) {
        0 => checks_named(shape, random),
        1 => versions(shape, random),
        2 => limits(shape, random),
        3 => widths_swapped(shape, random),
        4 => width(shape, random),
        5 => gaps(shape, random),
        6 => types(shape, random),
        7 => check_moved(shape, random),
        8 => ranges_moved(shape, random),
        9 => ranges_gathered(shape, random),
        10 => shape.spread = !shape.spread,
        11 => signals_routed(shape, random),
        12 => vehicles_routed(shape, random),
        13 | 14 => scene(shape, random),
        15 | 16 => slots(shape, random),
        17 => train(shape, random),
        18 => asked(shape, random),
        _ => replacements(shape, random),
    }
}

/// One of so many, some in a row, or all.
fn some(random: &mut Random, of: usize) -> Range<usize> {
    let first = random.below(of);
    match random.below(4) {
        0 | 1 => first..first + 1,
        2 => first..of.min(first + 2 + random.below(31)),
        _ => 0..of,
    }
}

/// Numbers for entries in a row: one for all, any, rising or falling.
fn numbers(random: &mut Random, count: usize, below: usize) -> Vec<usize> {
    let (how, one) = (random.below(4), random.below(below));
    let number = |at: usize| match how {
        0 => one,
        1 => random.below(below),
        2 => at * below / count,
        _ => (count - 1 - at) * below / count,
    };
    (0..count).map(number).collect()
}

fn checks_named(shape: &mut Shape, random: &mut Random) {
    let some = some(random, shape.fields.len());
    let numbers = numbers(random, some.len(), shape.checks.len() + 1);
    for (field, number) in shape.fields[some].iter_mut().zip(numbers) {
        field.check = number as u8;
    }
}

fn versions(shape: &mut Shape, random: &mut Random) {
    let some = some(random, shape.fields.len());
    let most = random.of(&[1, 3, 255]);
    let numbers = numbers(random, some.len(), most);
    for (field, number) in shape.fields[some].iter_mut().zip(numbers) {
        field.since = 1 + number as u8;
    }
}

fn limits(shape: &mut Shape, random: &mut Random) {
    const LIMITS: [u32; 6] = [0, 1, 2_999, 3_000, 5_000, 600_000];
    let some = some(random, shape.fields.len());
    let numbers = numbers(random, some.len(), LIMITS.len());
    for (field, number) in shape.fields[some].iter_mut().zip(numbers) {
        field.limit = LIMITS[number];
    }
}

fn replacements(shape: &mut Shape, random: &mut Random) {
    let some = some(random, shape.fields.len());
    let numbers = numbers(random, some.len(), 1 << 20);
    for (field, number) in shape.fields[some].iter_mut().zip(numbers) {
        field.replacement = number as u64;
    }
}

/// Of two signals that are no doors, with their codes: all bits and all codes find room as before, if not in another type.
fn widths_swapped(shape: &mut Shape, random: &mut Random) {
    let doors = shape.doors();
    let others = &mut shape.fields[doors..];
    let (a, b) = (random.below(others.len()), random.below(others.len()));
    let (one, other) = (others[a], others[b]);
    (others[a].width, others[a].ranges) = (other.width, other.ranges);
    (others[b].width, others[b].ranges) = (one.width, one.ranges);
}

/// Wider or narrower, at the cost of the gap before the next where it has one, so that those behind it need not move.
fn width(shape: &mut Shape, random: &mut Random) {
    let at = shape.doors() + random.below(shape.fields.len() - shape.doors());
    let field = &mut shape.fields[at];
    let before = field.width;
    let apart = 1 + random.below(4) as u8;
    field.width = match random.below(2) {
        0 => (before + apart).min(64),
        _ => before.saturating_sub(apart).max(1),
    };
    let (kind, now) = (field.kind, field.width);
    if let Some(next) = shape
        .fields
        .get_mut(at + 1)
        .filter(|next| next.kind == kind)
    {
        next.gap = (next.gap + u16::from(before)).saturating_sub(now.into());
    }
}

/// Fields start at other bits of their octets.
fn gaps(shape: &mut Shape, random: &mut Random) {
    let some = some(random, shape.fields.len());
    let most = random.of(&[1, 2, 4]);
    let numbers = numbers(random, some.len(), most);
    for (field, number) in shape.fields[some].iter_mut().zip(numbers) {
        field.gap = number as u16;
    }
    if random.below(4) == 0 {
        let some = self::some(random, shape.ways.len());
        let numbers = self::numbers(random, some.len(), 2);
        for (way, number) in shape.ways[some].iter_mut().zip(numbers) {
            way.gap = number as u8;
        }
    }
}

/// The last fields of a type become the first of another behind it, or the other way round; types go on rising.
fn types(shape: &mut Shape, random: &mut Random) {
    let doors = shape.doors();
    let (lower, upper) = random.of(&[(0, 1), (1, 2), (0, 2)]);
    let fields = &mut shape.fields[doors..];
    let border = fields.partition_point(|field| field.kind <= lower);
    let count = 1 + random.below(16);
    if random.below(2) == 0 {
        let from = fields.partition_point(|field| field.kind < lower);
        for field in &mut fields[from.max(border.saturating_sub(count))..border] {
            field.kind = upper;
        }
    } else {
        for field in fields[border..].iter_mut().take(count) {
            field.kind = lower;
        }
    }
    fields.sort_by_key(|field| field.kind);
}

fn check_moved(shape: &mut Shape, random: &mut Random) {
    let from = random.below(shape.checks.len());
    let common = random.below(2) == 0;
    let place = match common {
        true => 16 + 2 * random.below(152) as u16,
        false => COMMON_END + 2 * random.below(352) as u16,
    };
    if let Err(to) = shape.checks.binary_search(&place) {
        shape.checks.insert(to, place);
        shape.checks.remove(from + usize::from(from >= to));
    }
}

fn moved(shape: &mut Shape, from: usize, to: usize, most: u16) {
    let free = room(shape.fields[to].width).saturating_sub(shape.fields[to].ranges);
    let count = most.min(free).min(shape.fields[from].ranges);
    shape.fields[from].ranges -= count;
    shape.fields[to].ranges += count;
}

fn ranges_moved(shape: &mut Shape, random: &mut Random) {
    for _ in 0..1 + random.below(16) {
        let of = shape.fields.len();
        let (from, to) = (random.below(of), random.below(of));
        let most = random.of(&[1, 1, 8, 512]);
        moved(shape, from, to, most);
    }
}

/// As many as one field has room for, out of all others; by chance into the widest that can have any.
fn ranges_gathered(shape: &mut Shape, random: &mut Random) {
    let fields = shape.fields.iter().enumerate();
    let widest = fields.max_by_key(|(_, field)| room(field.width));
    let widest = widest.map_or(0, |(at, _)| at);
    let any = random.below(shape.fields.len());
    let to = random.of(&[widest, any]);
    for from in 0..shape.fields.len() {
        if from != to {
            moved(shape, from, to, 512);
        }
    }
}

/// Other signals: any, one alone, the last, or one behind the other.
fn signals_routed(shape: &mut Shape, random: &mut Random) {
    let some = some(random, shape.ways.len());
    let of = shape.fields.len();
    let last = 1 + random.below(of);
    let numbers = numbers(random, some.len(), last);
    for (way, number) in shape.ways[some].iter_mut().zip(numbers) {
        way.signal = (of - last + number) as u16;
    }
}

fn vehicles_routed(shape: &mut Shape, random: &mut Random) {
    let some = some(random, shape.ways.len());
    let numbers = numbers(random, some.len(), VEHICLES);
    for (way, number) in shape.ways[some].iter_mut().zip(numbers) {
        way.vehicle = 1 + number as u8;
    }
}

fn scene(shape: &mut Shape, random: &mut Random) {
    let number = random.below(shape.scenes.len());
    let scene = &mut shape.scenes[number];
    match random.below(5) {
        0 => scene.kind = random.of(&[1, 1, 2, 3]),
        1 => scene.version = random.of(&[1, 2, 3, 255]),
        2 => {
            let values = [Values::First, Values::Last, Values::Known, Values::Wild];
            scene.values = random.of(&values);
        }
        3 => scene.marks = random.of(&[Marks::Ok, Marks::Live, Marks::Wild]),
        _ => scene.seed = random.below(1 << 20) as u64,
    }
}

fn slots(shape: &mut Shape, random: &mut Random) {
    let some = some(random, VEHICLES);
    let how = random.below(3);
    let numbers = numbers(random, some.len(), 4);
    for (slot, number) in shape.slots[some].iter_mut().zip(numbers) {
        match how {
            0 => slot.scene = number as u8,
            1 => slot.heard = [1, 1, 2, 0][number],
            _ => slot.age = [0, 3_000, 5_001, 600_001][number],
        }
    }
}

/// The vehicle and the signal that are asked for, which bit is wrong, and how much differs in the list that is compared.
fn asked(shape: &mut Shape, random: &mut Random) {
    match random.below(4) {
        0 => shape.vehicle = 1 + random.below(VEHICLES) as u8,
        1 => shape.signal = random.below(shape.fields.len()) as u16,
        2 => shape.wrong = Some(random.below(2_048) as u16),
        _ => shape.changed = 1 + random.below(3),
    }
}

/// The leading vehicle stays; the others are coaches, sleeping cars, tractive or led.
fn train(shape: &mut Shape, random: &mut Random) {
    let some = some(random, VEHICLES);
    let numbers = numbers(random, some.len(), 4);
    for (mark, number) in shape.train[some].iter_mut().zip(numbers) {
        if *mark & 1 == 0 {
            *mark = [2, 18, 4, 12][number];
        }
    }
    if random.below(4) == 0 {
        shape.address = random.of(&[64, 65, 66, 66, 67, 70, 92]);
    }
}
