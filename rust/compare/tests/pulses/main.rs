//! Document 02, W-208, by the proved library: pulses too short for the coil. Answers and both buffers are
//! the plain simulator's, which looks for pulses in the cells, and those worked out by hand; the listing is
//! the one that a run leaves, and the report what that listing says.

mod agreed;
mod by_hand;
mod converted;
mod generated;
mod limits;
mod order;
mod renumbered;
mod rooms;
mod widths;
