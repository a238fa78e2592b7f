//! Document 02, W-209: how a node's cell joins the contributions of its drivers.

use crate::level::{NONE, UNKNOWN};

/// Z yields to the other, equal values stay, anything else is X.
pub fn join(one: u8, other: u8) -> u8 {
    match (one, other) {
        (NONE, value) | (value, NONE) => value,
        _ if one == other => one,
        _ => UNKNOWN,
    }
}
