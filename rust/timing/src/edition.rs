//! The editions of the sheet.

/// Which bytes a module's record has: a sheet does not say it itself.
#[derive(Debug, Clone, Copy, PartialEq, Eq, Hash)]
pub enum Edition {
    /// Records of 7 bytes, kinds 0 to 9.
    First,
    /// Records of 8 bytes, with a third input, and kinds 0 to 15.
    Second,
}

impl Edition {
    /// Both, in order.
    pub const ALL: [Edition; 2] = [Edition::First, Edition::Second];

    /// The one that sheets of this one are converted to.
    pub fn other(self) -> Edition {
        match self {
            Edition::First => Edition::Second,
            Edition::Second => Edition::First,
        }
    }

    /// 1 or 2.
    pub fn number(self) -> u8 {
        match self {
            Edition::First => 1,
            Edition::Second => 2,
        }
    }

    /// The bytes of a module's record.
    pub fn module_bytes(self) -> usize {
        match self {
            Edition::First => 7,
            Edition::Second => 8,
        }
    }
}
