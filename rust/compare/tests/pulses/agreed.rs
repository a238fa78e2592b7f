//! A report by the proved library and one by the plain simulator, over buffers that are alike.

use compare::{hex, Lent};
use generate::limits::{PULSE_BYTES, RECORD_BYTES};
use generate::PulsesInput;
use plain::Edition;

/// What a report is given. The buffers have so many bytes.
#[derive(Clone, Copy)]
pub struct Given<'a> {
    pub edition: Edition,
    pub sheet: &'a [u8],
    pub horizon: u32,
    pub width: u32,
    pub listing_bytes: usize,
    pub report_bytes: usize,
}

impl<'a> Given<'a> {
    /// With buffers of so many bytes, the listing's and the report's.
    pub fn new(edition: Edition, input: &'a PulsesInput, bytes: [usize; 2]) -> Given<'a> {
        let [listing_bytes, report_bytes] = bytes;
        Given {
            edition,
            sheet: &input.run.sheet,
            horizon: input.run.horizon,
            width: input.width,
            listing_bytes,
            report_bytes,
        }
    }
}

/// The answer and the bytes that were written: the listing's records, and the report's pulses.
#[derive(Debug, PartialEq, Eq)]
pub struct Outcome {
    pub answer: [u32; 3],
    pub listing: Vec<u8>,
    pub report: Vec<u8>,
}

/// The buffers that a call is lent.
struct Buffers {
    listing: Lent,
    report: Lent,
}

impl Buffers {
    fn new(given: &Given) -> Buffers {
        Buffers {
            listing: Lent::new(given.listing_bytes),
            report: Lent::new(given.report_bytes),
        }
    }

    /// What comes of an answer after which the listing has so many records. Every other byte must be as it
    /// was, also those around the lent ones, and the report must be untouched by a refusal.
    fn outcome(&self, answer: [u32; 3], records: u32, whence: &str) -> Outcome {
        let pulses = match answer {
            [0, 0, pulses] => pulses,
            _ => 0,
        };
        let stray =
            |buffer: &str| -> ! { panic!("{whence}: {answer:?} and a stray byte in the {buffer}") };
        let listing = self.listing.written(RECORD_BYTES * records as usize);
        let report = self.report.written(PULSE_BYTES * pulses as usize);
        Outcome {
            answer,
            listing: listing.unwrap_or_else(|| stray("listing")).to_vec(),
            report: report.unwrap_or_else(|| stray("report")).to_vec(),
        }
    }
}

/// The records that a run leaves which answers so, or none where the width is refused. A run that is
/// refused refuses the report alike, and 25 has the count of the listing.
fn records_left(answer: [u32; 3], ran: [u32; 3]) -> Option<u32> {
    match (answer, ran) {
        ([24, 0, 0], _) => Some(0),
        ([0, 0, _], [0, 0, records]) => Some(records),
        ([25, _, count], [0, 0, records]) => (count == records).then_some(records),
        (_, [_, _, records]) => (answer == ran).then_some(records),
    }
}

/// The report by the proved library. Its listing must be what its run leaves in a buffer of the same
/// length.
pub fn proved(given: &Given, whence: &str) -> Outcome {
    let &Given {
        edition,
        sheet,
        horizon,
        width,
        listing_bytes,
        ..
    } = given;
    let mut buffers = Buffers::new(given);
    let Buffers { listing, report } = &mut buffers;
    let answer = compare::pulses(
        edition,
        sheet,
        horizon,
        width,
        listing.lent(),
        report.lent(),
    );
    let mut run = Lent::new(listing_bytes);
    let ran = compare::run(edition, sheet, horizon, run.lent());
    let records = records_left(answer, ran);
    let records = records.unwrap_or_else(|| panic!("{whence}: {answer:?} after a run's {ran:?}"));
    let outcome = buffers.outcome(answer, records, whence);
    if records > 0 {
        let left = run.written(outcome.listing.len());
        assert_eq!(
            left,
            Some(&outcome.listing[..]),
            "{whence}: the run's listing"
        );
    }
    outcome
}

/// Asserts that both give the same answer and leave the same bytes, and gives them.
pub fn agreed(given: &Given, whence: &str) -> Outcome {
    let proved = proved(given, whence);
    let &Given {
        edition,
        sheet,
        horizon,
        width,
        ..
    } = given;
    let mut buffers = Buffers::new(given);
    let Buffers { listing, report } = &mut buffers;
    let answer = plain::pulses(
        edition,
        sheet,
        horizon,
        width,
        listing.lent(),
        report.lent(),
    );
    let records = proved.listing.len() / RECORD_BYTES;
    let plain = buffers.outcome(answer.triple(), records as u32, whence);
    assert!(
        proved == plain,
        "{edition:?}, {whence}: proved {:?} {}, plain {:?} {}: horizon {horizon}, width {width}, sheet {}",
        proved.answer,
        hex(&proved.report),
        plain.answer,
        hex(&plain.report),
        hex(sheet)
    );
    proved
}
