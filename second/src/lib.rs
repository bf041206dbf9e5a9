//! The second program: the rules of document 01, with the landed requests of
//! 02, in plain Rust, written from these, their pages of readings and TR 2174
//! alone.
//!
//! One module a chapter. Every public function answers on every input: none
//! panics, and a refused call leaves all lent memory as it was.

#![forbid(unsafe_code)]

pub mod answer;
pub mod check;
pub mod content;
pub mod corrections;
pub mod energy;
pub mod gen;
pub mod index;
pub mod kinds;
pub mod layout;
pub mod links;
mod listed;
mod natural;
pub mod normal;
pub mod order;
pub mod parents;
pub mod pings;
pub mod programs;
mod quantity;
pub mod readings;
pub mod records;
pub mod salvage;
mod samples;
pub mod settings;
pub mod walk;
pub mod words;

pub use answer::{Answer, Reply};
pub use check::check;
pub use content::{content, Entry};
pub use corrections::{corrected, Corrected, WhichFile};
pub use energy::{energies, energy};
pub use index::{append, index, remove};
pub use kinds::{Family, PingKind};
pub use links::{DocumentId, Maker, SoftwareChannel, TransceiverNumber};
pub use normal::normalise;
pub use order::Order;
pub use parents::{parents, Parents};
pub use readings::{readings, Reading};
pub use salvage::{salvage, Salvaged};
pub use settings::settings;
