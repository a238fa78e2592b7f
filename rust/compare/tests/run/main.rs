//! Running a sheet: the proved library gives the plain simulator's answers and bytes, document
//! 01's, and those that the source documents print.

mod agreed;
mod converted;
mod document_01;
mod ends;
mod event_driven;
mod faults;
mod generated;
mod limits;
mod loaded;
mod reading;
mod renumbered;
mod several_drivers;
mod start;
mod three_inputs;
mod vectors;
