//! The proved library's calls as the plain simulator has them, and what the tests share.

#![forbid(unsafe_code)]

mod entry;
mod hex;
mod lent;
mod made;
mod outcome;
mod place;
mod stream;

pub use entry::{check, check_strict, convert, load, pulses, run};
pub use hex::hex;
pub use lent::Lent;
pub use made::{converted, loaded};
pub use outcome::Outcome;
pub use place::{program, repository, table_generator};
pub use stream::{count, seed};
pub use timing::calls::describe;
