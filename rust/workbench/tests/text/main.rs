//! The text form of cards.

mod by_hand;
mod mistakes;
mod round_trip;
