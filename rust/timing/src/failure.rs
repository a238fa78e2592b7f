//! Why a run into all the room that it needs gave nothing.

use std::error::Error;
use std::fmt;

use crate::refusal::Refusal;

/// A refusal by the library, or a machine that is too small.
#[derive(Debug, Clone, PartialEq, Eq)]
pub enum Failure {
    /// The library's refusal, which is never one for the listing's room.
    Refused(Refusal),
    /// There is no memory for a longer listing.
    NoMemory {
        /// What a buffer would have taken.
        bytes: usize,
    },
}

impl From<Refusal> for Failure {
    fn from(refusal: Refusal) -> Failure {
        Failure::Refused(refusal)
    }
}

impl fmt::Display for Failure {
    fn fmt(&self, f: &mut fmt::Formatter<'_>) -> fmt::Result {
        match self {
            Failure::Refused(refusal) => refusal.fmt(f),
            Failure::NoMemory { bytes } => write!(f, "there is no memory for {bytes} bytes"),
        }
    }
}

impl Error for Failure {}
