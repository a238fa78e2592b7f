//! A report of pulses.

use crate::number_at;

/// The bytes of a pulse.
pub const PULSE_BYTES: usize = 9;

/// A value of a watched node that lasted for fewer ticks than the width.
#[derive(Debug, Clone, Copy, PartialEq, Eq)]
pub struct Pulse {
    /// The tick of the change that it begins with.
    pub start: u32,
    /// The node's number.
    pub node: u8,
    /// The ticks up to the change that it ends with.
    pub length: u32,
}

impl Pulse {
    /// The pulse of a report's bytes.
    pub(crate) fn from_bytes(bytes: &[u8]) -> Pulse {
        Pulse {
            start: number_at(bytes, 0),
            node: bytes[4],
            length: number_at(bytes, 5),
        }
    }
}
