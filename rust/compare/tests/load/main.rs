//! Document 02, W-210, by the proved library: sheets whose drive is drawn from a seed. Answers and bytes
//! are the plain simulator's, what each draw gives when it is worked out by its number alone, and those
//! worked out by hand.

mod agreed;
mod by_hand;
mod generated;
mod limits;
mod once;
mod order;
mod same_inputs;
mod small;
