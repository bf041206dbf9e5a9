//! HAC fisheries recordings: checked, walked both ways, linked, asked which settings
//! held at each ping, searched for a ping with corrections beside the deposit, read, as
//! values, as readings in volts or decibels and as echo energies, written, brought to one
//! normal form, appended to and removed from with an index that stays true, and salvaged,
//! by the proved library.
//!
//! A file is a slice of bytes and may hold anything; a place is a byte offset
//! in it. Every call accepts, or gives a [`Refusal`]: the first rule broken, in
//! document 01's order, in which 02's codes follow, 23 to 25 in the place of 10,
//! 26 behind 21, 27 before 19, 28 to 31 behind all. A refused call leaves lent memory as it
//! was; an accepted one leaves what stands past what it wrote.
//!
//! ```
//! use hac::{Navigation, Order};
//!
//! let told = Navigation {
//!     time_fraction: 5000,
//!     time_cpu: 60,
//!     navigation_system: 1,
//!     heading: -905,
//!     navigation_speed: 5144,
//!     tuple_attribute: 0,
//! };
//! let mut file = [0; hac::FIRST_PLACE + 28];
//! let (mark, tuple) = file.split_at_mut(hac::FIRST_PLACE);
//! mark.copy_from_slice(&Order::Msb.mark());
//! told.write(Order::Msb, tuple)?;
//! assert_eq!(Navigation::read(&file, hac::FIRST_PLACE)?, told);
//!
//! // One tuple is no acceptable file: its first is no signature.
//! let refusal = hac::check(&file).unwrap_err();
//! assert_eq!(refusal.to_string(), "7: first is no signature, or a later one is, at 4");
//! # Ok::<(), hac::Refusal>(())
//! ```

// Unsafe code stands in what `call` takes in, and nowhere else.
#![deny(unsafe_code)]
#![warn(missing_docs)]

#[macro_use]
mod table;

mod advice;
mod answer;
#[allow(unsafe_code)]
mod call;
mod corrections;
mod edits;
mod energy;
mod field;
mod file;
#[cfg(test)]
mod header;
mod normal;
mod ping;
mod readings;
mod record;
mod salvage;
mod settings;
pub mod types;
mod walk;
mod wrong;

// All that a module has to offer, so that a further call is said in its module alone.
pub use advice::*;
pub use answer::*;
pub use corrections::*;
pub use edits::*;
pub use energy::*;
pub use field::*;
pub use file::*;
pub use normal::*;
pub use ping::*;
pub use readings::*;
pub use record::*;
pub use salvage::*;
pub use settings::*;
pub use types::Maker;
pub use walk::*;
pub use wrong::*;
