//! A seeded generator of network sheets, good and bad.
//!
//! Every stream of sheets is determined by its seed, so a failing one can be made again. The
//! families are named and stand in files of their own; [`Generator::any`] mixes them,
//! [`Generator::run_input`] mixes what runs are given, [`Generator::pulses_input`] what reports of
//! pulses are, and [`Generator::load_input`] what loads are. Sheets with several drivers a node come
//! from a stream beside the others', so that those are what they were before there were any.

#![forbid(unsafe_code)]

mod answer;
mod beside;
mod buses;
pub mod by_hand;
mod bytes;
mod conversion;
pub mod conversions_by_hand;
mod crowded;
pub mod draws_by_hand;
pub mod drivers;
pub mod drivers_by_hand;
pub mod ends;
pub mod ends_by_hand;
pub mod every;
mod fault;
mod gates;
mod kinds;
pub mod limits;
mod load_input;
pub mod loads;
pub mod loads_by_hand;
mod met;
mod mixture;
mod more_drivers;
mod output;
pub mod pulses;
pub mod pulses_by_hand;
mod pulses_input;
mod random;
mod reorder;
mod room;
mod run;
mod run_mixture;
pub mod runs_by_hand;
mod same_inputs;
pub mod shared;
pub mod sheets;
mod start;
mod valid;
mod zero_delay;

pub use load_input::LoadInput;
pub use met::assert_met;
pub use output::Output;
pub use pulses_input::PulsesInput;
pub use random::Random;
pub use room::{room_for_all, Room};
pub use run_mixture::RunInput;
pub use start::{starts_of, Start};
pub use valid::Size;
pub use zero_delay::ZeroDelay;

use plain::Edition;

/// The state of a stream of sheets, all of one edition.
pub struct Generator {
    edition: Edition,
    random: Random,
    /// For sheets with several drivers a node.
    beside: Random,
}

impl Generator {
    /// Sheets of the first edition.
    pub fn new(seed: u64) -> Generator {
        Generator::of(Edition::First, seed)
    }

    /// Sheets of either edition.
    pub fn of(edition: Edition, seed: u64) -> Generator {
        Generator {
            edition,
            random: Random::new(seed),
            beside: Random::new(seed.rotate_left(17) ^ 209),
        }
    }
}

/// A number below 256 as a byte.
fn byte(number: usize) -> u8 {
    u8::try_from(number).expect("the number has one byte")
}
