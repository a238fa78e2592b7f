//! The limits that generated sheets, runs and reports meet, the sizes of records, and how many are printed.

/// The last horizon that runs.
pub const LAST_HORIZON: u32 = 1_000_000;

/// The most nodes that a sheet may have.
pub const MOST_NODES: usize = 256;

/// The most modules that a sheet may have.
pub const MOST_MODULES: usize = 256;

/// The most events that a drive may have.
pub const MOST_EVENTS: usize = 1_024;

/// The most changes that may be pending after a tick.
pub const MOST_PENDING: usize = 4_096;

/// The bytes of the longest sheets, of the first edition and of the second.
pub const LONGEST_SHEETS: [usize; 2] = [8_456, 8_712];

/// The bytes of an event in a drive.
pub const EVENT_BYTES: usize = 6;

/// The bytes of a record in a listing.
pub const RECORD_BYTES: usize = 10;

/// The greatest width that pulses are reported for.
pub const GREATEST_WIDTH: u32 = 10_000;

/// The bytes of a pulse in a report.
pub const PULSE_BYTES: usize = 9;

/// The most records that the program prints: those that the 60,000 bytes it lends take.
pub const MOST_PRINTED: u32 = 6_000;
