//! What the program prints.

use crate::answer::Answer;
use crate::edition::Edition;
use crate::level::symbol;
use crate::listing::run;
use crate::record::Record;
use crate::sentence::sentence;

/// The bytes that the program lends for the listing.
const LENT: usize = 60_000;

/// One byte more than the longest sheet, so that bytes left over are seen.
const READ_AT_MOST: usize = 8_457;

/// The bytes that the program prints for this standard input. It keeps to the first edition.
pub fn program(input: &[u8]) -> Vec<u8> {
    let (horizon, sheet) = parts(input);
    let mut listing = vec![0; LENT];
    let answer = run(Edition::First, sheet, horizon, &mut listing);
    let mut printed = sentence(answer) + "\n";
    if let Answer::Ran { count } = answer {
        printed += &records(&listing, count);
    }
    printed.into_bytes()
}

/// The horizon, its missing bytes being 0, and the sheet.
fn parts(input: &[u8]) -> (u32, &[u8]) {
    let (first, rest) = input.split_at(input.len().min(4));
    let mut horizon = [0; 4];
    horizon[..first.len()].copy_from_slice(first);
    let sheet = &rest[..rest.len().min(READ_AT_MOST)];
    (u32::from_le_bytes(horizon), sheet)
}

fn records(listing: &[u8], count: u32) -> String {
    let mut printed = String::new();
    let (records, _) = listing.as_chunks();
    for &record in &records[..count as usize] {
        let Record {
            tick,
            node,
            value,
            end,
        } = Record::from_bytes(record);
        printed += &format!("{tick} {node} {} {end}\n", symbol(value));
    }
    printed
}
