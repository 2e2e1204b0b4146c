//! The gas keys for Rust: answer keys to numerical exam questions for gas turbine performance
//! technicians.
//!
//! A safe wrapper of `libcapi.a`, in which every call is proved to give a defined answer or a
//! numbered [`Refusal`] for every input. Nothing has to be checked before a call: a list of any
//! length and any number may be passed. A list is lent as a slice, and what a call leaves in it is
//! said with the call. There is no state, but for the [`SheetReading`] of a sheet that arrives in
//! pieces, which is the caller's own; calls may be made from any number of threads.
//!
//! The archive is looked for in the folder GASKEYS_LIB, else in the project's target/staticlib,
//! where `tools/build capi` puts it. One of another version than [`raw::VERSION`] does not link.

mod air;
mod gas;
mod marking;
mod pieces;
pub mod raw;
mod refusal;
mod sheet;
mod walk;

pub use air::{air_cp, air_heat, air_psi};
pub use gas::{
    burn, content, gas_heat, psi_inverse, specific_content, temperature, Charge, Heat, Millikelvin,
    Products, LOOKS,
};
pub use marking::{mark, station, Station, Typed};
pub use pieces::{Progress, SheetReading};
pub use refusal::{Reason, Refusal};
pub use sheet::{
    built_in_sheet, fill_built_in_sheet, judge_sheet, read_sheet, write_sheet, SHEET_PLACES,
    SHEET_TEXT_MOST,
};
pub use walk::{walk, Lent, State, Step, Walked};
