//! Document 02, W-207, by the proved library: sheets converted to the other edition. Answers and bytes are
//! the plain simulator's, and those worked out by hand.

mod agreed;
mod by_hand;
mod generated;
mod limits;
mod small;
mod there_and_back;
