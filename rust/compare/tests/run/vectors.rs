//! What the source documents print and derive for circuits of their own.

mod flip_flop;
mod storage_cell;
mod zero_delay;
