//! The proved library of timing networks, for Rust.
//!
//! Two layers. [`calls`] has each call of the C archive over lent slices and answers its three numbers; above
//! it are [`Sheet`], [`Listing`] and [`Refusal`], which own what a call writes. Nothing stands between the
//! library's bytes and what these show.
//!
//! ```
//! use timing::{Edition, Sheet};
//!
//! // Document 01's worked run: node 0 is an input that rises at tick 5, and node 1 is the NAND of both
//! // nodes with delay 3, X at first.
//! let bytes = [
//!     2, 0, 4, 2, // nodes
//!     1, 0, 6, 0, 1, 0, 1, 3, 0, // modules
//!     2, 0, 0, 0, 0, 0, 0, 0, 5, 0, 0, 0, 0, 1, // drive
//!     2, 0, 0, 1, // watched nodes
//! ];
//! let listing = Sheet::new(Edition::First, &bytes).run(12, 100)?;
//! let shown: Vec<String> = listing
//!     .iter()
//!     .map(|record| format!("{} {} {} {}", record.tick, record.node, record.value, record.end))
//!     .collect();
//! assert_eq!(shown, ["0 0 0 5", "0 1 X 3", "3 1 1 8", "5 0 1 12", "8 1 0 11", "11 1 1 12"]);
//! # Ok::<(), timing::Refusal>(())
//! ```

#![warn(missing_docs)]

pub mod calls;
mod edition;
mod failure;
mod level;
mod listing;
pub mod number;
mod pulses;
mod refusal;
mod sheet;

pub use edition::Edition;
pub use failure::Failure;
pub use level::Level;
pub use listing::{Listing, Record, Records, RECORD_BYTES};
pub use pulses::{Pulse, PULSE_BYTES};
pub use refusal::{sentence, Place, Refusal};
pub use sheet::Sheet;

/// The version of the library.
pub const VERSION: &str = env!("CARGO_PKG_VERSION");

/// A number of four bytes, the low byte first.
fn number_at(bytes: &[u8], place: usize) -> u32 {
    let four = bytes[place..place + 4].try_into();
    u32::from_le_bytes(four.expect("there are four bytes"))
}
