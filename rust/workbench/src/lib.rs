//! What people work with around the proved library: cards as text, names, places in words, listings, value
//! change dumps and timing diagrams. It adds nothing between the library's bytes and what it shows.

#![forbid(unsafe_code)]

pub mod bench;
pub mod card;
pub mod command;
pub mod contents;
pub mod kind;
pub mod mistake;
pub mod names;
pub mod place;
pub mod print;
pub mod run;
pub mod sha256;
pub mod svg;
pub mod text;
pub mod vcd;
