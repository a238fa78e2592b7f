//! The plain cell-by-cell simulator of timing networks.
//!
//! Written from documents 01 and 02 alone and kept literal rather than fast, so that it can be the
//! yardstick for the proved library: the whole history of every node and of every module's
//! contribution is kept, a memory searches back through it, and pending changes are counted from
//! differences of contributions.

#![forbid(unsafe_code)]

mod answer;
mod cells;
mod convert;
mod draw;
mod edition;
mod gate;
mod join;
mod level;
mod listing;
mod load;
mod pending;
mod program;
mod pulses;
mod read;
mod reader;
mod record;
mod renumber;
mod sentence;
mod sheet;
mod whole;
pub mod worked_run;
mod zero_delay;

pub use answer::Answer;
pub use cells::{cells, timelines, Timelines};
pub use convert::convert;
pub use draw::Draws;
pub use edition::Edition;
pub use gate::{in_set, rule};
pub use join::join;
pub use level::{HIGH, LOW, NONE, UNKNOWN};
pub use listing::run;
pub use load::load;
pub use pending::pending;
pub use program::program;
pub use pulses::pulses;
pub use read::{check, check_strict, read};
pub use renumber::{renumbered, renumbered_listing};
pub use sentence::{describe, phrase, sentence};
pub use sheet::{Event, Module, Sheet, INPUT};
