//! The sizes that documents 01 and 02 give a store and a signal entry. Each is spelled here alone: the tests, the
//! comparison and the bench take them from here.

use std::ops::Range;

/// "63 slots".
pub const VEHICLES: usize = 63;

/// Where the "heard octet" of a slot stands.
pub const HEARD: usize = 0;
/// Where the "4-octet stamp" of a slot stands.
pub const STAMP: Range<usize> = 1..5;
/// Where "a 4-octet previous stamp after the stamp" stands.
pub const PREVIOUS: Range<usize> = STAMP.end..STAMP.end + 4;
/// The octets of a slot before its telegram.
pub const HEAD: usize = PREVIOUS.end;
/// "128 telegram octets".
pub const TELEGRAM: usize = 128;
/// The octets of a slot.
pub const SLOT: usize = HEAD + TELEGRAM;
/// The octets of a store.
pub const STORE: usize = VEHICLES * SLOT;

/// The octets of a signal entry in form 1, which are the first of one in form 2.
pub const SIGNAL_SIZE: usize = 16;
/// The octets of a serial number, "the last two" of a signal entry in form 2.
pub const SERIAL_SIZE: usize = 2;
