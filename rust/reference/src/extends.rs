//! "List B extends list A if each signal of A stands in B with equal type, start, width, check place (or
//! none) and since-version; each code of it known under A is known under B; and each signal only in B has
//! a since-version above A's version."

use crate::form::Form;
use crate::list::{Code, CodeEntry, List, Signal};
use crate::refusal::Refusal;

/// The answer to "does list B extend list A".
#[derive(Debug, Clone, Copy, PartialEq, Eq)]
pub enum Extends {
    /// B extends A.
    Yes,
    /// Both lists are good and B does not extend A.
    No,
    /// List A was refused: "of two lists, the first is judged first".
    First(Refusal),
    /// List A is good and list B was refused.
    Second(Refusal),
}

/// Whether list `b`, of form `other`, extends list `a`, of form `form`.
pub fn extends(a: &[u8], form: Form, b: &[u8], other: Form) -> Extends {
    let a = match List::judged(a, form) {
        Ok(a) => a,
        Err(refusal) => return Extends::First(refusal),
    };
    let b = match List::judged(b, other) {
        Ok(b) => b,
        Err(refusal) => return Extends::Second(refusal),
    };
    if stands_in(&a, &b) {
        Extends::Yes
    } else {
        Extends::No
    }
}

/// One pass over both lists: signals stand by type and start, no two of a list alike.
fn stands_in(a: &List, b: &List) -> bool {
    let order = |signal: Signal| (signal.kind(), signal.start());
    let (mut a_codes, mut b_codes) = (a.codes_in_order(), b.codes_in_order());
    let mut a_signals = a.signals.iter().map(Signal::of).enumerate().peekable();
    for (b_number, ours) in b.signals.iter().map(Signal::of).enumerate() {
        let b_known = b_codes.next_of(b_number);
        match a_signals.next_if(|&(_, theirs)| order(theirs) <= order(ours)) {
            Some((a_number, theirs)) => {
                let a_known = a_codes.next_of(a_number);
                let equal = order(theirs) == order(ours)
                    && theirs.width() == ours.width()
                    && theirs.since() == ours.since()
                    && a.check_place(theirs) == b.check_place(ours);
                if !equal || !all_known(a_known, b_known, ours.width()) {
                    return false;
                }
            }
            None if ours.since() <= a.version => return false,
            None => {}
        }
    }
    a_signals.peek().is_none()
}

/// "each code of it known under A is known under B". Entries of a signal leave a gap of at least one code
/// between them, so a range of A is known under B if it lies in one range of B.
#[inline]
fn all_known(a: &[CodeEntry], b: &[CodeEntry], width: u8) -> bool {
    let Some(first) = b.first().map(Code::of) else {
        return true; // "A signal with no entry knows every code."
    };
    if a.is_empty() {
        // B has an entry, so the width is at most 16.
        return first.low == 0 && u32::from(first.high) + 1 == 1 << width;
    }
    let mut b = b.iter().map(Code::of).peekable();
    a.iter().map(Code::of).all(|range| {
        while b.next_if(|code| code.high < range.low).is_some() {}
        b.peek()
            .is_some_and(|code| code.low <= range.low && range.high <= code.high)
    })
}
