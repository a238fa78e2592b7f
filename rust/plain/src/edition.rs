//! The editions of the sheet: document 01's, and the second of document 02, W-205.

/// What tells them apart is the module's record.
#[derive(Debug, Clone, Copy, PartialEq, Eq)]
pub enum Edition {
    First,
    /// A module has a third input.
    Second,
}

impl Edition {
    pub const ALL: [Edition; 2] = [Edition::First, Edition::Second];

    /// The one that sheets of this one are converted to.
    pub fn other(self) -> Edition {
        match self {
            Edition::First => Edition::Second,
            Edition::Second => Edition::First,
        }
    }

    /// The bytes of a module's record.
    pub fn module_bytes(self) -> usize {
        match self {
            Edition::First => 7,
            Edition::Second => 8,
        }
    }

    pub fn greatest_kind(self) -> u8 {
        match self {
            Edition::First => 9,
            Edition::Second => 15,
        }
    }
}
