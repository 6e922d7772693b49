//! How cost grows with the list: every call that judges one, at four sizes.

use crate::calls::{self, Call};
use crate::cases::Case;
use crate::lists;
use crate::shape::{Of, Shape};
use std::rc::Rc;

/// In eighths of the greatest size.
const PARTS: [usize; 4] = [1, 2, 4, 8];

fn case(call: &Call, eighths: usize) -> Option<Case> {
    let input = Shape::even(call.of, eighths).built();
    let input = Rc::new(input.expect("the list of the bench is laid out"));
    let bench = match (call.of, eighths) {
        (Of::Any, _) => Some(lists::list(8 * eighths, 5_000)),
        (Of::Profile, 8) => Some(lists::narrow()),
        _ => None,
    };
    assert!(bench.is_none_or(|list| list == input.list), "it is another");
    let octets = call.octets(&input)?;
    let name = format!("{}, list of {octets} octets", call.name);
    Some(call.case(name, &input))
}

/// The calls of these names, or all, each at an eighth, a quarter, a half and all of the greatest size.
pub fn cases(names: Option<&[&str]>) -> Vec<Case> {
    let named = |call: &Call| names.is_none_or(|names| names.contains(&call.name));
    let calls = calls::all().into_iter().filter(named);
    calls
        .flat_map(|call| PARTS.map(|part| case(&call, part)))
        .flatten()
        .collect()
}
