//! Sheets that the proved library makes, into all the room that they may need.

use plain::Edition;

use crate::{convert, load};

/// A converted sheet gains a byte for each module, and there are 256 at most.
const MOST_GAINED: usize = 256;

/// The bytes of the longest sheet of either edition.
const LONGEST: usize = 8_712;

/// The sheet, which is of the edition `from`, as a sheet of the other, or the answer that refuses it.
pub fn converted(from: Edition, sheet: &[u8]) -> Result<Vec<u8>, [u32; 3]> {
    made(sheet.len() + MOST_GAINED, |output| {
        convert(from, sheet, output)
    })
}

/// The sheet with the drive that a seed and so many events give, or the answer that refuses it.
pub fn loaded(edition: Edition, sheet: &[u8], seed: u32, n: u32) -> Result<Vec<u8>, [u32; 3]> {
    made(LONGEST, |output| load(edition, sheet, seed, n, output))
}

/// What a call writes to so many bytes, or the answer that refuses it.
fn made(room: usize, call: impl FnOnce(&mut [u8]) -> [u32; 3]) -> Result<Vec<u8>, [u32; 3]> {
    let mut output = vec![0; room];
    match call(&mut output) {
        [0, 0, count] => {
            output.truncate(count as usize);
            Ok(output)
        }
        refusal => Err(refusal),
    }
}
