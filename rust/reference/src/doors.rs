//! C-20, "Doors summary for the driver's desk": "For each side it shows locked, open or not known, from octet 20 bits 4 and 5 (1.9 and 1.10 of
//! source document 000) of every vehicle in the consist."

use crate::form::Form;
use crate::list::{CodeEntry, List, Signal};
use crate::reading::{read_slot, Reading};
use crate::refusal::Refusal;
use crate::store::{slots, Slots};
use crate::train::{resolve, Members};

/// "locked, open or not known"; the numbers are those of C.
#[derive(Debug, Clone, Copy, PartialEq, Eq)]
pub enum State {
    /// "Locked exactly if every vehicle's bit is live and 1".
    Locked = 1,
    /// "open if any vehicle's is live and 0".
    Open = 2,
    /// "not known otherwise".
    Unknown = 0,
}

/// What is shown of one side.
#[derive(Debug, Clone, Copy, PartialEq, Eq)]
pub struct Side {
    /// What its doors are.
    pub state: State,
    /// "the set of vehicles that kept it from saying locked, and its size".
    pub kept: Members,
}

/// What is shown of both sides.
#[derive(Debug, Clone, Copy, PartialEq, Eq)]
pub struct Doors {
    /// By octet 20 bit 4.
    pub left: Side,
    /// By octet 20 bit 5.
    pub right: Side,
}

/// Octet 20 bit 4, and bit 5 behind it.
const LEFT: u16 = 8 * 19 + 4;
const RIGHT: u16 = LEFT + 1;

/// A door signal of a judged list, with its known codes.
struct Door<'a> {
    signal: Signal,
    codes: &'a [CodeEntry],
}

impl<'a> Door<'a> {
    /// "The list must hold both bits as common signals of width 1": the one at this place, or refusal 35.
    fn at(list: &List<'a>, place: u16) -> Result<Self, Refusal> {
        let mut signals = list.signals.iter().map(Signal::of).enumerate();
        let door = signals.find(|(_, s)| (s.kind(), s.start(), s.width()) == (0, place, 1));
        let (number, signal) = door.ok_or(Refusal::plain(35))?;
        Ok(Door {
            signal,
            codes: list.codes_of(number),
        })
    }

    /// One side of the vehicles that are asked, each of which has a slot.
    fn side(&self, list: &List, slots: &Slots, now: u32, asked: u64) -> Side {
        let (mut locked, mut open) = (0u64, 0u64);
        let asks = |vehicle: &u32| asked >> vehicle & 1 == 1;
        for (vehicle, slot) in (1..).zip(slots).filter(|(vehicle, _)| asks(vehicle)) {
            // Of one bit, so that a value that is not 0 is 1.
            match read_slot(list, self.signal, self.codes, slot, now) {
                Reading { reason: 2.., .. } => {}
                Reading { value: 0, .. } => open |= 1 << vehicle,
                _ => locked |= 1 << vehicle,
            }
        }
        let set = asked & !locked;
        let state = match (set, open) {
            (0, _) => State::Locked,
            (_, 0) => State::Unknown,
            _ => State::Open,
        };
        let size = set.count_ones();
        Side {
            state,
            kept: Members { set, size },
        }
    }
}

/// The summary of the vehicles that meet an address, as [`resolve`] has them of the marks; 66 is every vehicle. Refusals 1 to 4, 5, then "35 a door
/// signal missing from the list; after 1-5 and before 17-20".
pub fn doors(
    list: &[u8],
    form: Form,
    store: &[u8],
    now: u32,
    marks: &[u8],
    address: u64,
) -> Result<Doors, Refusal> {
    let list = List::judged(list, form)?;
    let slots = slots(store)?;
    let [left, right] = [Door::at(&list, LEFT)?, Door::at(&list, RIGHT)?];
    let asked = resolve(marks, address)?.set;
    let [left, right] = [left, right].map(|door| door.side(&list, slots, now, asked));
    Ok(Doors { left, right })
}
