//! The four values of a cell.

use std::fmt;

/// A value, printed as 0, 1, X or Z.
#[derive(Debug, Clone, Copy, PartialEq, Eq, Hash)]
pub enum Level {
    /// 0.
    Low,
    /// 1.
    High,
    /// Undefined: X.
    Unknown,
    /// No value: Z.
    None,
}

impl Level {
    /// All four, by the byte that stands for each in sheets and listings.
    pub const ALL: [Level; 4] = [Level::Low, Level::High, Level::Unknown, Level::None];

    /// The value that a byte of a sheet or a listing stands for.
    pub fn from_byte(byte: u8) -> Option<Level> {
        Level::ALL.get(usize::from(byte)).copied()
    }

    /// The byte that stands for the value.
    pub fn byte(self) -> u8 {
        self as u8
    }

    /// How the value is printed.
    pub fn letter(self) -> char {
        ['0', '1', 'X', 'Z'][usize::from(self.byte())]
    }
}

impl fmt::Display for Level {
    fn fmt(&self, f: &mut fmt::Formatter<'_>) -> fmt::Result {
        write!(f, "{}", self.letter())
    }
}
