//! Each call of the C archive over lent slices, by its name there without `timing_`.
//!
//! A call answers three numbers: the refusal's number (0 for a finished call), its place, and the count of
//! records, pulses or bytes that were written. Nothing is asked of the bytes, numbers and lengths, and what
//! each call leaves in every lent byte is in `include/timing.h`. What ends in `_2` takes a sheet of the
//! second edition.
//!
//! ```
//! // One node, an input that nobody drives, and it is watched.
//! let sheet = [1, 0, 4, 0, 0, 0, 0, 1, 0, 0];
//! let mut listing = [0xEE; 16];
//! assert_eq!(timing::calls::run(&sheet, 9, &mut listing), [0, 0, 1]);
//! assert_eq!(listing[..10], [0, 0, 0, 0, 0, 2, 9, 0, 0, 0]);
//! assert_eq!(listing[10..], [0xEE; 6]);
//! ```

/// Number, place and count.
pub type Answer = [u32; 3];

/// No word of an answer is this large, so one that is left unwritten shows.
const UNWRITTEN: u32 = 0xDEAD_BEEF;

type Check = unsafe extern "C" fn(sheet: *const u8, length: usize, answer: *mut Answer);

type Run = unsafe extern "C" fn(
    sheet: *const u8,
    length: usize,
    horizon: u32,
    listing: *mut u8,
    bytes: usize,
    answer: *mut Answer,
);

type Pulses = unsafe extern "C" fn(
    sheet: *const u8,
    length: usize,
    horizon: u32,
    width: u32,
    listing: *mut u8,
    bytes: usize,
    report: *mut u8,
    report_bytes: usize,
    answer: *mut Answer,
);

type Convert = unsafe extern "C" fn(
    sheet: *const u8,
    length: usize,
    output: *mut u8,
    bytes: usize,
    answer: *mut Answer,
);

type Load = unsafe extern "C" fn(
    sheet: *const u8,
    length: usize,
    seed: u32,
    n: u32,
    output: *mut u8,
    bytes: usize,
    answer: *mut Answer,
);

/// The archive's functions, as `include/timing.h` declares them.
mod c {
    use super::Answer;

    extern "C" {
        pub fn timing_check(sheet: *const u8, length: usize, answer: *mut Answer);
        pub fn timing_check_2(sheet: *const u8, length: usize, answer: *mut Answer);

        pub fn timing_check_strict(sheet: *const u8, length: usize, answer: *mut Answer);
        pub fn timing_check_strict_2(sheet: *const u8, length: usize, answer: *mut Answer);

        pub fn timing_run(
            sheet: *const u8,
            length: usize,
            horizon: u32,
            listing: *mut u8,
            bytes: usize,
            answer: *mut Answer,
        );
        pub fn timing_run_2(
            sheet: *const u8,
            length: usize,
            horizon: u32,
            listing: *mut u8,
            bytes: usize,
            answer: *mut Answer,
        );

        pub fn timing_pulses(
            sheet: *const u8,
            length: usize,
            horizon: u32,
            width: u32,
            listing: *mut u8,
            bytes: usize,
            report: *mut u8,
            report_bytes: usize,
            answer: *mut Answer,
        );
        pub fn timing_pulses_2(
            sheet: *const u8,
            length: usize,
            horizon: u32,
            width: u32,
            listing: *mut u8,
            bytes: usize,
            report: *mut u8,
            report_bytes: usize,
            answer: *mut Answer,
        );

        pub fn timing_convert_1_to_2(
            sheet: *const u8,
            length: usize,
            output: *mut u8,
            bytes: usize,
            answer: *mut Answer,
        );
        pub fn timing_convert_2_to_1(
            sheet: *const u8,
            length: usize,
            output: *mut u8,
            bytes: usize,
            answer: *mut Answer,
        );

        pub fn timing_load(
            sheet: *const u8,
            length: usize,
            seed: u32,
            n: u32,
            output: *mut u8,
            bytes: usize,
            answer: *mut Answer,
        );
        pub fn timing_load_2(
            sheet: *const u8,
            length: usize,
            seed: u32,
            n: u32,
            output: *mut u8,
            bytes: usize,
            answer: *mut Answer,
        );

        pub fn timing_describe(
            number: u32,
            place: u32,
            count: u32,
            text: *mut u8,
            bytes: usize,
            answer: *mut Answer,
        );
    }
}

/// Checks the sheet.
pub fn check(sheet: &[u8]) -> Answer {
    checked(c::timing_check, sheet)
}

/// [`check`] of the second edition.
pub fn check_2(sheet: &[u8]) -> Answer {
    checked(c::timing_check_2, sheet)
}

/// Checks the sheet and that every input has an event at tick 0.
pub fn check_strict(sheet: &[u8]) -> Answer {
    checked(c::timing_check_strict, sheet)
}

/// [`check_strict`] of the second edition.
pub fn check_strict_2(sheet: &[u8]) -> Answer {
    checked(c::timing_check_strict_2, sheet)
}

fn checked(call: Check, sheet: &[u8]) -> Answer {
    let mut answer = [UNWRITTEN; 3];
    // SAFETY: a check reads the sheet's bytes and writes the three words, and both are lent for the
    // whole call. An empty slice's pointer is not null.
    unsafe { call(sheet.as_ptr(), sheet.len(), &mut answer) };
    answer
}

/// Runs the sheet to the horizon and writes its records to the front of `listing`.
pub fn run(sheet: &[u8], horizon: u32, listing: &mut [u8]) -> Answer {
    ran(c::timing_run, sheet, horizon, listing)
}

/// [`run`] of the second edition.
pub fn run_2(sheet: &[u8], horizon: u32, listing: &mut [u8]) -> Answer {
    ran(c::timing_run_2, sheet, horizon, listing)
}

fn ran(call: Run, sheet: &[u8], horizon: u32, listing: &mut [u8]) -> Answer {
    let mut answer = [UNWRITTEN; 3];
    // SAFETY: as above; the listing's bytes are written, too, and lent for the whole call.
    unsafe {
        call(
            sheet.as_ptr(),
            sheet.len(),
            horizon,
            listing.as_mut_ptr(),
            listing.len(),
            &mut answer,
        );
    }
    answer
}

/// Runs the sheet to the horizon over `listing` and writes the pulses that are shorter than the width to
/// the front of `report`.
pub fn pulses(
    sheet: &[u8],
    horizon: u32,
    width: u32,
    listing: &mut [u8],
    report: &mut [u8],
) -> Answer {
    reported(c::timing_pulses, sheet, horizon, width, listing, report)
}

/// [`pulses`] of the second edition.
pub fn pulses_2(
    sheet: &[u8],
    horizon: u32,
    width: u32,
    listing: &mut [u8],
    report: &mut [u8],
) -> Answer {
    reported(c::timing_pulses_2, sheet, horizon, width, listing, report)
}

fn reported(
    call: Pulses,
    sheet: &[u8],
    horizon: u32,
    width: u32,
    listing: &mut [u8],
    report: &mut [u8],
) -> Answer {
    let mut answer = [UNWRITTEN; 3];
    // SAFETY: as above; the listing's and the report's bytes are written, too, and lent for the whole call.
    unsafe {
        call(
            sheet.as_ptr(),
            sheet.len(),
            horizon,
            width,
            listing.as_mut_ptr(),
            listing.len(),
            report.as_mut_ptr(),
            report.len(),
            &mut answer,
        );
    }
    answer
}

/// Writes the sheet, which is of the first edition, to the front of `output` as a sheet of the second.
pub fn convert_1_to_2(sheet: &[u8], output: &mut [u8]) -> Answer {
    converted(c::timing_convert_1_to_2, sheet, output)
}

/// Writes the sheet, which is of the second edition, to the front of `output` as a sheet of the first.
pub fn convert_2_to_1(sheet: &[u8], output: &mut [u8]) -> Answer {
    converted(c::timing_convert_2_to_1, sheet, output)
}

fn converted(call: Convert, sheet: &[u8], output: &mut [u8]) -> Answer {
    let mut answer = [UNWRITTEN; 3];
    // SAFETY: as above; the output's bytes are written, too, and lent for the whole call.
    unsafe {
        call(
            sheet.as_ptr(),
            sheet.len(),
            output.as_mut_ptr(),
            output.len(),
            &mut answer,
        );
    }
    answer
}

/// Writes the sheet to the front of `output`, its drive replaced by one that the seed gives: an event for
/// each input, and `n` more.
pub fn load(sheet: &[u8], seed: u32, n: u32, output: &mut [u8]) -> Answer {
    loaded(c::timing_load, sheet, seed, n, output)
}

/// [`load`] of the second edition.
pub fn load_2(sheet: &[u8], seed: u32, n: u32, output: &mut [u8]) -> Answer {
    loaded(c::timing_load_2, sheet, seed, n, output)
}

fn loaded(call: Load, sheet: &[u8], seed: u32, n: u32, output: &mut [u8]) -> Answer {
    let mut answer = [UNWRITTEN; 3];
    // SAFETY: as above; the output's bytes are written, too, and lent for the whole call.
    unsafe {
        call(
            sheet.as_ptr(),
            sheet.len(),
            seed,
            n,
            output.as_mut_ptr(),
            output.len(),
            &mut answer,
        );
    }
    answer
}

/// Writes the sentence of an answer to the front of `text`.
pub fn describe([number, place, count]: Answer, text: &mut [u8]) -> Answer {
    let mut answer = [UNWRITTEN; 3];
    // SAFETY: the text's bytes and the three words are written, and both are lent for the whole
    // call. An empty slice's pointer is not null.
    unsafe {
        c::timing_describe(
            number,
            place,
            count,
            text.as_mut_ptr(),
            text.len(),
            &mut answer,
        );
    }
    answer
}
