//! The plain simulator against document 01: its examples, and what it says of each part.

mod conversion;
mod drive;
mod ends;
mod examples;
mod faults;
mod gates;
mod joining;
mod load;
mod memory;
mod program;
mod pulses;
mod refusals;
mod renumbering;
mod second_edition;
mod several_drivers;
mod start;
mod support;
mod three_inputs;
