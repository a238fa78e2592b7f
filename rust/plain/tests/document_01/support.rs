//! Runs over a buffer that shows what was written, shared by the tests, and short ways to write sheets down.

use generate::limits::RECORD_BYTES;
pub use generate::sheets::*;
pub use plain::Edition;
use plain::{Answer, Sheet};

/// The byte that stands where nothing has been written.
pub const UNTOUCHED: u8 = 0xA5;

/// A run over a buffer of `length` untouched bytes, with the buffer as it is left.
pub fn run_in(edition: Edition, sheet: &[u8], horizon: u32, length: usize) -> (Answer, Vec<u8>) {
    let mut listing = vec![UNTOUCHED; length];
    let answer = plain::run(edition, sheet, horizon, &mut listing);
    (answer, listing)
}

/// The same of a sheet of the first edition.
pub fn run(sheet: &[u8], horizon: u32, length: usize) -> (Answer, Vec<u8>) {
    run_in(Edition::First, sheet, horizon, length)
}

/// The records of a run that must finish.
pub fn listed_in(edition: Edition, sheet: &Sheet, horizon: u32) -> Vec<Record> {
    let bytes = sheet.encode(edition);
    let (answer, listing) = run_in(edition, &bytes, horizon, 1_000 * RECORD_BYTES);
    assert!(matches!(answer, Answer::Ran { .. }), "{answer:?}");
    written(answer, &listing)
}

/// The same of a sheet of the first edition.
pub fn listed(sheet: &Sheet, horizon: u32) -> Vec<Record> {
    listed_in(Edition::First, sheet, horizon)
}

/// The records that a run has written. Every byte past them must be untouched.
pub fn written(answer: Answer, listing: &[u8]) -> Vec<Record> {
    let [.., count] = answer.triple();
    let (written, rest) = listing.split_at(RECORD_BYTES * count as usize);
    assert!(rest.iter().all(|&byte| byte == UNTOUCHED));
    records(written)
}
