//! Lists and what is lent with them, as the choices that they are laid out by. A choice can be changed alone: the list is laid out again, and is a
//! good one of the same size, or does not fit and is none.

use crate::calls::Input;
use crate::lists::{self, put16, NOW};
use crate::random::mixed;
use reference::{Form, Kind, Profile, HEAD, HEARD, SLOT, STAMP, TELEGRAM, VEHICLES};

/// What a list must be beside good.
#[derive(Clone, Copy, Debug, PartialEq)]
pub enum Of {
    Any,
    /// It has the two signals of the doors.
    Doors,
    /// It is in the profile of driving trailers.
    Profile,
}

/// A signal, before it has a place.
#[derive(Clone, Copy)]
pub struct Field {
    pub kind: u8,
    /// Bits that stay free before it.
    pub gap: u16,
    pub width: u8,
    /// 0 for none, else counted round the checks that its type may name.
    pub check: u8,
    pub since: u8,
    pub limit: u32,
    pub replacement: u64,
    /// How many ranges of codes it knows, 0 for every code.
    pub ranges: u16,
}

/// A route, before it has a place.
#[derive(Clone, Copy)]
pub struct Way {
    pub signal: u16,
    pub vehicle: u8,
    pub gap: u8,
}

/// The codes of a telegram: as the bench has them, in the first range or the last, in any, or not known.
#[derive(Clone, Copy)]
pub enum Values {
    Even,
    First,
    Last,
    Known,
    Wild,
}

/// The marks of a telegram: as the bench has them, ok, ok or forced, or any.
#[derive(Clone, Copy)]
pub enum Marks {
    Even,
    Ok,
    Live,
    Wild,
}

/// What a telegram says.
#[derive(Clone, Copy)]
pub struct Scene {
    pub kind: u8,
    pub version: u8,
    pub values: Values,
    pub marks: Marks,
    pub seed: u64,
}

/// A slot of the store: one of the scenes, and its age.
#[derive(Clone, Copy)]
pub struct Heard {
    pub scene: u8,
    pub heard: u8,
    pub age: u32,
}

#[derive(Clone)]
pub struct Shape {
    pub of: Of,
    pub checks: Vec<u16>,
    /// By type; of a list with doors, these come first.
    pub fields: Vec<Field>,
    /// Whether ranges of codes are spread over all codes, or short but the last.
    pub spread: bool,
    pub ways: Vec<Way>,
    pub scenes: [Scene; 4],
    pub slots: Vec<Heard>,
    pub vehicle: u8,
    pub signal: u16,
    /// Every so many-th signal and route is another in the list that it is compared with.
    pub changed: usize,
    /// A bit of the data that a supplier marshalled wrong.
    pub wrong: Option<u16>,
    pub train: Vec<u8>,
    pub address: u64,
}

/// A field that has its place, and the number of its check.
#[derive(Clone, Copy)]
pub struct Placed<'a> {
    pub field: &'a Field,
    pub start: usize,
    pub check: usize,
}

/// Where the common bits end, and where the doors are.
pub const COMMON_END: u16 = 320;
pub const DOORS: u16 = 156;
const LAST_ROUTED: usize = 2_048;
const LONGEST_LIMIT: u32 = 600_000;

fn region(kind: u8) -> (usize, usize) {
    match kind {
        0 => (16, COMMON_END.into()),
        _ => (COMMON_END.into(), 8 * TELEGRAM),
    }
}

fn top(width: u8) -> u64 {
    u64::MAX >> (64 - width)
}

/// How many ranges of codes a field has room for, one code between two.
pub fn room(width: u8) -> u16 {
    match width {
        1..=10 => 1 << (width - 1),
        11..=16 => 512,
        _ => 0,
    }
}

/// From here on, the first place for a field that shares no bit with what is blocked, two bits each.
fn clear(blocked: &[u16], start: usize, width: usize) -> usize {
    let next = blocked.partition_point(|&place| usize::from(place) + 2 <= start);
    let mut at = start;
    for &place in &blocked[next..] {
        if usize::from(place) >= at + width {
            break;
        }
        at = usize::from(place) + 2;
    }
    at
}

impl Shape {
    /// The checks and, where they are not signals, the doors; none if they share a bit.
    fn blocked(&self) -> Option<Vec<u16>> {
        let mut blocked = self.checks.clone();
        if self.of == Of::Doors {
            let at = blocked.binary_search(&DOORS).err()?;
            blocked.insert(at, DOORS);
        }
        Some(blocked)
    }

    fn put<'a>(&self, field: &'a Field, start: usize) -> Placed<'a> {
        let common = self.checks.partition_point(|&place| place < COMMON_END);
        let (first, count) = match field.kind {
            0 => (0, common),
            _ => (common, self.checks.len() - common),
        };
        let check = match field.check {
            _ if self.of == Of::Profile && field.kind == 1 => {
                let under = reference::check_place(start as u64).unwrap_or(0);
                let is_there = |&place: &u16| u64::from(place) == under;
                self.checks.iter().position(is_there).map_or(0, |at| at + 1)
            }
            0 => 0,
            _ if count == 0 => 0,
            check => first + 1 + (usize::from(check) - 1) % count,
        };
        Placed {
            field,
            start,
            check,
        }
    }

    /// Every field at its place, or none if one finds no room.
    pub fn placed(&self) -> Option<Vec<Placed<'_>>> {
        let blocked = self.blocked()?;
        let (doors, fields) = self.fields.split_at(self.doors());
        let mut placed: Vec<Placed> = Vec::with_capacity(self.fields.len());
        let mut kind = 0;
        let (mut at, mut end) = region(kind);
        for field in fields {
            if field.kind != kind {
                kind = field.kind;
                (at, end) = region(kind);
            }
            let width = usize::from(field.width);
            at = clear(&blocked, at + usize::from(field.gap), width);
            if at + width > end || field.ranges > room(field.width) {
                return None;
            }
            placed.push(self.put(field, at));
            at += width;
        }
        for (start, field) in (usize::from(DOORS)..).zip(doors) {
            let before = |of: &Placed| of.field.kind == 0 && of.start < start;
            let at = placed.partition_point(before);
            placed.insert(at, self.put(field, start));
        }
        Some(placed)
    }

    /// How many of the fields are doors.
    pub fn doors(&self) -> usize {
        match self.of {
            Of::Doors => 2,
            _ => 0,
        }
    }

    /// A range of the codes that a field knows.
    fn range(&self, field: &Field, number: u64) -> (u64, u64) {
        let ranges = u64::from(field.ranges);
        if self.spread {
            let step = (top(field.width) + 1) / ranges;
            return (number * step, number * step + step - 2);
        }
        match number + 1 == ranges {
            true => (2 * number, top(field.width)),
            false => (2 * number, 2 * number),
        }
    }

    /// Every profile asks that a replacement be known.
    fn replacement(&self, field: &Field) -> u64 {
        match (self.of, field.ranges) {
            (Of::Profile, 1..) => self.range(field, u64::from(field.ranges) - 1).1,
            _ => field.replacement & top(field.width.min(48)),
        }
    }

    /// The list; or one with other time limits, or in which every so many-th signal and route is another. None if the routes find no room.
    fn octets(&self, placed: &[Placed], other: bool, changed: usize) -> Option<Vec<u8>> {
        let mut list = Vec::with_capacity(10_888);
        put16(&mut list, self.checks.len());
        for &place in &self.checks {
            put16(&mut list, place.into());
        }
        put16(&mut list, placed.len());
        for (number, of) in placed.iter().enumerate() {
            let field = of.field;
            put16(&mut list, of.start);
            list.extend([field.width, field.kind, of.check as u8, field.since]);
            let apart = 1_000 * u32::from(other) + u32::from(is_changed(number, changed));
            let limit = match field.limit + apart {
                limit if limit > LONGEST_LIMIT => field.limit - apart,
                limit => limit,
            };
            list.extend(limit.to_be_bytes());
            list.extend(&self.replacement(field).to_be_bytes()[2..]);
        }
        self.put_codes(&mut list, placed, changed);
        self.put_routes(&mut list, placed, changed).then_some(list)
    }

    fn put_codes(&self, list: &mut Vec<u8>, placed: &[Placed], changed: usize) {
        let ranges = placed.iter().map(|of| usize::from(of.field.ranges));
        put16(list, ranges.sum());
        for (number, of) in placed.iter().enumerate() {
            for range in 0..u64::from(of.field.ranges) {
                let (mut low, mut high) = self.range(of.field, range);
                if is_changed(number, changed) {
                    low += 1;
                    high = high.max(low);
                }
                put16(list, number);
                put16(list, low as usize);
                put16(list, high as usize);
            }
        }
    }

    fn put_routes(&self, list: &mut Vec<u8>, placed: &[Placed], changed: usize) -> bool {
        put16(list, self.ways.len());
        let mut at = 0;
        for (number, way) in self.ways.iter().enumerate() {
            let signal = usize::from(way.signal) % placed.len();
            let vehicle = match is_changed(number, changed) {
                true => 1 + way.vehicle % VEHICLES as u8,
                false => way.vehicle,
            };
            at += usize::from(way.gap);
            put16(list, signal);
            list.extend([vehicle, 0]);
            put16(list, at);
            at += usize::from(placed[signal].field.width);
        }
        at <= LAST_ROUTED
    }

    fn value(&self, scene: &Scene, number: usize, field: &Field) -> u64 {
        let any = mixed(scene.seed, number);
        let last = u64::from(field.ranges).wrapping_sub(1);
        let value = match (scene.values, field.ranges) {
            (Values::Even, _) if field.width == 1 => 1,
            (Values::Even, _) => 2 + number as u64 % 2,
            (Values::Wild, _) | (_, 0) => any,
            (Values::First, _) => self.range(field, 0).0,
            (Values::Last, _) => self.range(field, last).1,
            (Values::Known, _) => self.range(field, any % (last + 1)).1,
        };
        value & top(field.width)
    }

    fn values(&self, scene: &Scene, placed: &[Placed]) -> Vec<u64> {
        let numbered = placed.iter().enumerate();
        let value = |(number, of): (usize, &Placed)| self.value(scene, number, of.field);
        numbered.map(value).collect()
    }

    fn marks(&self, scene: &Scene) -> Vec<u8> {
        let mark = |number: usize| match scene.marks {
            Marks::Even => 1 + u8::from(number % 4 == 3),
            Marks::Ok => 1,
            Marks::Live => 1 + (mixed(scene.seed, number) % 2) as u8,
            Marks::Wild => (mixed(scene.seed, number) % 4) as u8,
        };
        (0..self.checks.len()).map(mark).collect()
    }

    /// The telegram of a scene, as it stands in a slot.
    fn telegram(&self, scene: &Scene, placed: &[Placed]) -> [u8; TELEGRAM] {
        let mut telegram = [0; TELEGRAM];
        (telegram[0], telegram[1]) = (0x10 | scene.kind, scene.version);
        let end = if scene.kind == 3 { COMMON_END } else { 1_024 };
        for (&place, mark) in self.checks.iter().zip(self.marks(scene)) {
            if place < end {
                reference::write_field(&mut telegram, place.into(), 2, mark.into());
            }
        }
        for (of, value) in placed.iter().zip(self.values(scene, placed)) {
            if [0, scene.kind].contains(&of.field.kind) {
                reference::write_field(&mut telegram, of.start, of.field.width.into(), value);
            }
        }
        telegram
    }

    fn store(&self, placed: &[Placed]) -> Vec<u8> {
        let telegrams = self.scenes.each_ref().map(|of| self.telegram(of, placed));
        let mut store = vec![0; reference::STORE];
        for (slot, heard) in store.chunks_mut(SLOT).zip(&self.slots) {
            slot[HEARD] = heard.heard;
            slot[STAMP].copy_from_slice(&NOW.wrapping_sub(heard.age).to_be_bytes());
            slot[HEAD..].copy_from_slice(&telegrams[usize::from(heard.scene)]);
        }
        store
    }

    /// Checks, signals, code entries and routes.
    pub fn size(&self) -> [usize; 4] {
        let ranges = self.fields.iter().map(|field| usize::from(field.ranges));
        [
            self.checks.len(),
            self.fields.len(),
            ranges.sum(),
            self.ways.len(),
        ]
    }

    /// What a call is lent, if the list is laid out and accepted.
    pub fn built(&self) -> Option<Input> {
        let placed = self.placed()?;
        let list = self.octets(&placed, false, 0)?;
        reference::judge(&list, Form::One).ok()?;
        if self.of == Of::Profile {
            reference::judge_profile(Profile::DrivingTrailer, &list, Form::One).ok()?;
        }
        let store = self.store(&placed);
        let mut after = vec![0xA5; LAST_ROUTED / 8];
        reference::marshal(&list, Form::One, &store, NOW, &mut after).ok()?;
        if let Some(bit) = self.wrong {
            after[usize::from(bit) / 8] ^= 0x80 >> (bit % 8);
        }
        let signal = usize::from(self.signal) % placed.len();
        let asked = placed[signal];
        let scaled = asked.field.width == 16;
        Some(Input {
            wide: lists::in_form_2(&list, placed.len()),
            same: list.clone(),
            other: self.octets(&placed, true, 0)?,
            changed: self.octets(&placed, false, self.changed)?,
            list,
            store,
            vehicle: self.vehicle.into(),
            signal: signal as u64,
            kind: asked.field.kind.into(),
            start: asked.start as u64,
            shown: if scaled { Kind::Speed } else { Kind::Code },
            telegram: self.scenes[0].kind.into(),
            values: self.values(&self.scenes[0], &placed),
            marks: self.marks(&self.scenes[0]),
            before: vec![0xA5; after.len()],
            after,
            train: self.train.clone(),
            address: self.address,
        })
    }
}

fn is_changed(number: usize, changed: usize) -> bool {
    changed != 0 && number.is_multiple_of(changed)
}
