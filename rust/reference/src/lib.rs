//! The gateway library of document 01, written a second time and independently: taking R-telegrams into
//! a store, the gap between two of them, sweeping it, reading signals, one or all of a vehicle or of a train, showing and marshalling them,
//! checking a recording of marshalling, composing R-telegrams, also anew from what was taken, judging signal lists, also by a profile, comparing
//! two of them and moving them from one form to the other, building the consist from christening records, resolving addresses, summing up the
//! doors of a train, reading and answering E-telegrams, and reading and writing those with remedy texts.
//!
//! Every function is total: it answers or refuses for every input and never panics. Every public call
//! tests its own input, and a refusal changes no lent octet.

#![forbid(unsafe_code)]
#![warn(missing_docs)]

mod christening;
mod comparing;
mod compose;
mod doors;
mod entry;
mod etelegram;
mod extends;
mod form;
mod grouping;
mod list;
mod marshal;
mod octets;
mod profile;
mod reading;
mod recordings;
mod refusal;
mod relay;
mod remedies;
mod shown;
mod sizes;
mod store;
mod train;

pub use christening::{christen, property, Level, Property};
pub use comparing::{codes_gained, route_change, signal_change, Change, CodeRange, Refused, Rule};
pub use compose::compose;
pub use doors::{doors, Doors, Side, State};
pub use entry::{find_signal, signal_entry, Entry};
pub use etelegram::{e_answer, e_read, EReading};
pub use extends::{extends, Extends};
pub use form::{serial, to_form_1, to_form_2, Form};
pub use grouping::check_place;
pub use list::{judge, Counts};
pub use marshal::marshal;
pub use octets::{read_field, write_field};
pub use profile::{judge_profile, Profile};
pub use reading::{read, read_all, read_train, Reading};
pub use recordings::{check_step, Finding, Place, WrongBit};
pub use refusal::Refusal;
pub use relay::relay;
pub use remedies::{read_remedies, remedy_block, write_remedies, Remedies, Remedy};
pub use shown::{show, Kind, Shown, ShownReading};
pub use sizes::{
    HEAD, HEARD, PREVIOUS, SERIAL_SIZE, SIGNAL_SIZE, SLOT, STAMP, STORE, TELEGRAM, VEHICLES,
};
pub use store::{gap, sweep, take};
pub use train::{resolve, Members};
