//! Document 01's one complete run, with the ends of document 02's W-204.

use crate::edition::Edition;
use crate::read::read;
use crate::sheet::Sheet;

/// The program's standard input: the horizon 12, then [`SHEET`].
pub const INPUT: [u8; 35] = [
    0x0C, 0x00, 0x00, 0x00, // horizon
    0x02, 0x00, 0x04, 0x02, // nodes
    0x01, 0x00, // modules
    0x06, 0x00, 0x01, 0x00, 0x01, 0x03, 0x00, // NAND of both nodes onto node 1
    0x02, 0x00, // drive
    0x00, 0x00, 0x00, 0x00, 0x00, 0x00, // low at tick 0
    0x05, 0x00, 0x00, 0x00, 0x00, 0x01, // high at tick 5
    0x02, 0x00, 0x00, 0x01, // watched
];

pub const HORIZON: u32 = 12;

/// The sheet after the four bytes of the horizon.
pub const SHEET: &[u8] = INPUT.split_at(4).1;

/// The sheet that these bytes hold in the first edition, to be written down in another.
pub fn sheet() -> Sheet {
    read(Edition::First, SHEET).expect("it is accepted")
}

/// What the program prints.
pub const PRINTED: &str =
    "finished, with a count of 6\n0 0 0 5\n0 1 X 3\n3 1 1 8\n5 0 1 12\n8 1 0 11\n11 1 1 12\n";

/// The records of its listing: tick, node, value and end.
pub const RECORDS: [(u32, u8, u8, u32); 6] = [
    (0, 0, 0, 5),
    (0, 1, 2, 3),
    (3, 1, 1, 8),
    (5, 0, 1, 12),
    (8, 1, 0, 11),
    (11, 1, 1, 12),
];

/// The records where its buffer is a byte short and tick 11 is refused: node 0 has its last value
/// then, and node 1 changes at the refused tick itself.
pub const RECORDS_BEFORE_11: [(u32, u8, u8, u32); 5] = [
    (0, 0, 0, 5),
    (0, 1, 2, 3),
    (3, 1, 1, 8),
    (5, 0, 1, 11),
    (8, 1, 0, 11),
];
