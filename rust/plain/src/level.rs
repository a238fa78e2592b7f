//! The four values of a node.

pub const LOW: u8 = 0;
pub const HIGH: u8 = 1;
/// Undefined.
pub const UNKNOWN: u8 = 2;
/// No value: nothing drives the node at that time.
pub const NONE: u8 = 3;

/// The value as it is printed.
pub(crate) fn symbol(value: u8) -> char {
    match value {
        LOW => '0',
        HIGH => '1',
        UNKNOWN => 'X',
        NONE => 'Z',
        _ => panic!("{value} is no value of a node"),
    }
}
