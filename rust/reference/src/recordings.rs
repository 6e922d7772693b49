//! C-21, "Check a supplier's marshalling": "Suppliers send recordings: list, store, clock, data before and data after. Accept the data after exactly
//! if it is what our rules give, bits outside the routes included."

use crate::form::Form;
use crate::list::{List, Route};
use crate::marshal::marshal_under;
use crate::reading::read_slot;
use crate::refusal::Refusal;
use crate::store::{slots, Slots};

/// "A recording holds up to 1,000 steps".
const MOST_STEPS: usize = 1_000;

/// Routes reach no octets but the first so many: "the field ends at or before bit 2048".
const ROUTED: usize = 2_048 / 8;

/// "the route it lies in with the reason our reading gives, or neither".
#[derive(Debug, Clone, Copy, PartialEq, Eq)]
pub enum Place {
    /// In the field of a route.
    InRoute {
        /// Its number, from 0.
        route: usize,
        /// "the reason our reading gives".
        reason: u8,
    },
    /// In no route.
    Outside,
}

/// "the first wrong bit".
#[derive(Debug, Clone, Copy, PartialEq, Eq)]
pub struct WrongBit {
    /// Its octet, from 0.
    pub octet: usize,
    /// Its place in it: "Bit 0 of an octet is its most significant bit."
    pub bit: u8,
    /// Where it lies.
    pub place: Place,
}

/// What is found of a step that is not refused.
#[derive(Debug, Clone, Copy, PartialEq, Eq)]
pub enum Finding {
    /// The data after are accepted.
    Right,
    /// They are not.
    Wrong(WrongBit),
}

/// Checks a step with `steps` before it, of which the last has the data after `last`. "Order in a step: 38, then 1-5 and 12, 36, 37".
#[allow(clippy::too_many_arguments)]
pub fn check_step(
    list: &[u8],
    form: Form,
    steps: usize,
    last: &[u8],
    store: &[u8],
    now: u32,
    before: &[u8],
    after: &[u8],
) -> Result<Finding, Refusal> {
    // "38 a 1,001st step is handed in".
    if steps >= MOST_STEPS {
        return Err(Refusal::plain(38));
    }
    let list = List::judged(list, form)?;
    let slots = slots(store)?;
    // What our rules give, as far as a route can reach; behind it the data stay as they were.
    let (near, far) = before.split_at(before.len().min(ROUTED));
    let mut ours = [0; ROUTED];
    let ours = &mut ours[..near.len()];
    ours.copy_from_slice(near);
    marshal_under(&list, slots, now, ours)?;
    // "36 the two data areas differ in length".
    if after.len() != before.len() {
        return Err(Refusal::plain(36));
    }
    // "a step's data before must be the last one's data after", else "37 a step doesn't follow on".
    if steps > 0 && last != before {
        return Err(Refusal::plain(37));
    }
    let Some((octet, bit)) = first_wrong(ours, far, after) else {
        return Ok(Finding::Right);
    };
    let place = place_of(&list, slots, now, octet, bit);
    Ok(Finding::Wrong(WrongBit { octet, bit, place }))
}

/// The first bit at which the data after differ from ours, which stand in two parts: by its octet, and its place in it.
#[inline]
fn first_wrong(near: &[u8], far: &[u8], after: &[u8]) -> Option<(usize, u8)> {
    let (first, second) = after.split_at(near.len());
    let (from, ours, after) = match near == first {
        true if far == second => return None,
        true => (near.len(), far, second),
        false => (0, near, first),
    };
    let octet = ours.iter().zip(after).position(|(a, b)| a != b)?;
    let bit = (ours[octet] ^ after[octet]).leading_zeros();
    Some((from + octet, bit as u8))
}

/// Where a bit lies. Routes stand in the order of their fields, no two of which share a bit, so that it lies in the last that starts at or before it,
/// if in any.
fn place_of(list: &List, slots: &Slots, now: u32, octet: usize, bit: u8) -> Place {
    if octet >= ROUTED {
        return Place::Outside;
    }
    let address = 8 * octet + usize::from(bit);
    let starts = |route: &_| usize::from(Route::of(route).start) <= address;
    let Some(number) = list.routes.partition_point(starts).checked_sub(1) else {
        return Place::Outside;
    };
    let route = Route::of(&list.routes[number]);
    let of = usize::from(route.signal);
    let signal = list.signals.at(of);
    if address >= usize::from(route.start) + usize::from(signal.width()) {
        return Place::Outside;
    }
    let slot = &slots[usize::from(route.vehicle) - 1];
    Place::InRoute {
        route: number,
        reason: read_slot(list, signal, list.codes_of(of), slot, now).reason,
    }
}
