//! The library's calls, by the edition as the plain simulator names it.

use plain::Edition;
use timing::calls::{self, Answer};

/// Checks the sheet.
pub fn check(edition: Edition, sheet: &[u8]) -> Answer {
    match edition {
        Edition::First => calls::check(sheet),
        Edition::Second => calls::check_2(sheet),
    }
}

/// Checks the sheet and that every input has an event at tick 0.
pub fn check_strict(edition: Edition, sheet: &[u8]) -> Answer {
    match edition {
        Edition::First => calls::check_strict(sheet),
        Edition::Second => calls::check_strict_2(sheet),
    }
}

/// Runs the sheet to the horizon and writes its records to the front of `listing`.
pub fn run(edition: Edition, sheet: &[u8], horizon: u32, listing: &mut [u8]) -> Answer {
    match edition {
        Edition::First => calls::run(sheet, horizon, listing),
        Edition::Second => calls::run_2(sheet, horizon, listing),
    }
}

/// Runs the sheet to the horizon over `listing` and writes the pulses that are shorter than the width to the
/// front of `report`.
pub fn pulses(
    edition: Edition,
    sheet: &[u8],
    horizon: u32,
    width: u32,
    listing: &mut [u8],
    report: &mut [u8],
) -> Answer {
    match edition {
        Edition::First => calls::pulses(sheet, horizon, width, listing, report),
        Edition::Second => calls::pulses_2(sheet, horizon, width, listing, report),
    }
}

/// Writes the sheet, which is of the edition `from`, to the front of `output` as a sheet of the other.
pub fn convert(from: Edition, sheet: &[u8], output: &mut [u8]) -> Answer {
    match from {
        Edition::First => calls::convert_1_to_2(sheet, output),
        Edition::Second => calls::convert_2_to_1(sheet, output),
    }
}

/// Writes the sheet, its drive replaced by one of `n` events more than inputs that the seed gives, to the
/// front of `output`.
pub fn load(edition: Edition, sheet: &[u8], seed: u32, n: u32, output: &mut [u8]) -> Answer {
    match edition {
        Edition::First => calls::load(sheet, seed, n, output),
        Edition::Second => calls::load_2(sheet, seed, n, output),
    }
}
