//! "Marshalling writes each route's value into its destination field, changes no other bit, and reports
//! how many routes had reason 0 or 1."

use crate::form::Form;
use crate::list::{CodeEntry, List, Route, MOST_SIGNALS};
use crate::octets::write_field;
use crate::reading::read_slot;
use crate::refusal::Refusal;
use crate::store::{slots, Slots};

/// Below this many routes, each looks its known codes up; from here on the codes are gone through once.
const FEW_ROUTES: usize = 64;

/// Writes every route of the list into `data` and gives the live count. Refusals 1 to 4, 5, 12.
pub fn marshal(
    list: &[u8],
    form: Form,
    store: &[u8],
    now: u32,
    data: &mut [u8],
) -> Result<u64, Refusal> {
    let list = List::judged(list, form)?;
    marshal_under(&list, slots(store)?, now, data)
}

/// Marshals under a judged list. Refusal 12.
#[inline]
pub(crate) fn marshal_under(
    list: &List,
    slots: &Slots,
    now: u32,
    data: &mut [u8],
) -> Result<u64, Refusal> {
    // "12: data shorter than a route's end": each start is at or past the end of the route before, so the
    // last route ends last.
    if let Some(route) = list.routes.last().map(Route::of) {
        let signal = list.signals.at(usize::from(route.signal));
        let end = usize::from(route.start) + usize::from(signal.width());
        if data.len() < end.div_ceil(8) {
            return Err(Refusal::plain(12));
        }
    }

    Ok(if list.routes.len() < FEW_ROUTES {
        write_routes(list, slots, now, data, |signal| list.codes_of(signal))
    } else {
        let first = first_codes(list);
        let codes_of = |signal: usize| &list.codes[first[signal].into()..first[signal + 1].into()];
        write_routes(list, slots, now, data, codes_of)
    })
}

/// Writes every route's value into its field and gives the live count.
#[inline]
fn write_routes<'a>(
    list: &List<'a>,
    slots: &Slots,
    now: u32,
    data: &mut [u8],
    codes_of: impl Fn(usize) -> &'a [CodeEntry],
) -> u64 {
    let mut live = 0;
    for route in list.routes.iter().map(Route::of) {
        let number = usize::from(route.signal);
        let signal = list.signals.at(number);
        let slot = &slots[usize::from(route.vehicle) - 1];
        let reading = read_slot(list, signal, codes_of(number), slot, now);
        write_field(
            data,
            usize::from(route.start),
            usize::from(signal.width()),
            reading.value,
        );
        live += u64::from(reading.reason <= 1);
    }
    live
}

/// Where the known codes of each signal begin, and behind the last where they end: routes stand in the
/// order of their destinations, not of their signals.
#[inline]
fn first_codes(list: &List) -> [u16; MOST_SIGNALS + 1] {
    let mut first = [0; MOST_SIGNALS + 1];
    let mut codes = list.codes_in_order();
    let mut at = 0;
    for (number, first) in first[1..].iter_mut().enumerate().take(list.signals.len()) {
        at += codes.next_of(number).len() as u16;
        *first = at;
    }
    first
}
