//! A run by the proved library and one by the plain simulator, over buffers that are alike.

use compare::{hex, Lent};
use generate::ends_by_hand::Case;
use generate::limits::RECORD_BYTES;
use generate::room_for_all;
use generate::sheets::{records, Record};
use plain::{Edition, Sheet};

/// A run's answer and the records that it wrote.
#[derive(Debug, Clone, PartialEq, Eq)]
pub struct Outcome {
    pub answer: [u32; 3],
    pub listing: Vec<u8>,
}

/// The run by the proved library, which must leave every byte past its records alone, also those
/// around the lent ones.
pub fn proved(
    edition: Edition,
    sheet: &[u8],
    horizon: u32,
    length: usize,
    whence: &str,
) -> Outcome {
    let mut lent = Lent::new(length);
    let answer = compare::run(edition, sheet, horizon, lent.lent());
    outcome(answer, &lent, whence)
}

/// The run by the plain simulator.
pub fn plain(edition: Edition, sheet: &[u8], horizon: u32, length: usize, whence: &str) -> Outcome {
    let mut lent = Lent::new(length);
    let answer = plain::run(edition, sheet, horizon, lent.lent()).triple();
    outcome(answer, &lent, whence)
}

fn outcome(answer: [u32; 3], lent: &Lent, whence: &str) -> Outcome {
    let [.., count] = answer;
    let listing = lent.written(RECORD_BYTES * count as usize);
    let listing = listing.unwrap_or_else(|| panic!("{whence}: {answer:?} and a stray byte"));
    Outcome {
        answer,
        listing: listing.to_vec(),
    }
}

/// Asserts that both give the same answer and leave the same bytes, and gives them.
pub fn agreed(
    edition: Edition,
    sheet: &[u8],
    horizon: u32,
    length: usize,
    whence: &str,
) -> Outcome {
    let proved = proved(edition, sheet, horizon, length, whence);
    let plain = plain(edition, sheet, horizon, length, whence);
    assert!(
        proved == plain,
        "{edition:?}, {whence}: proved {:?}, plain {:?}, first difference at byte {:?}: {length} bytes, \
         horizon {horizon}, sheet {}",
        proved.answer,
        plain.answer,
        first_difference(&proved.listing, &plain.listing),
        hex(sheet)
    );
    proved
}

/// The records of a run on which both agree and which must finish.
pub fn listed_in(edition: Edition, sheet: &Sheet, horizon: u32, whence: &str) -> Vec<Record> {
    let bytes = sheet.encode(edition);
    let room = room_for_all(edition, &bytes, horizon);
    let outcome = agreed(edition, &bytes, horizon, room, whence);
    let records = records(&outcome.listing);
    assert_eq!(outcome.answer, [0, 0, records.len() as u32], "{whence}");
    records
}

/// The records of a sheet without third inputs, which every edition must list.
pub fn listed(sheet: &Sheet, horizon: u32, whence: &str) -> Vec<Record> {
    let [first, second] = Edition::ALL.map(|edition| listed_in(edition, sheet, horizon, whence));
    assert_eq!(first, second, "{whence}");
    first
}

/// A run that is worked out by hand, which every edition must answer and list so.
pub fn listed_by_hand(case: &Case) {
    for edition in Edition::ALL {
        let sheet = case.sheet.encode(edition);
        let outcome = agreed(edition, &sheet, case.horizon, case.bytes, case.name);
        assert_eq!(outcome.answer, case.answer, "{}", case.name);
        assert_eq!(records(&outcome.listing), case.records, "{}", case.name);
    }
}

fn first_difference(one: &[u8], other: &[u8]) -> Option<usize> {
    let common = one.iter().zip(other).position(|(a, b)| a != b);
    common.or_else(|| (one.len() != other.len()).then(|| one.len().min(other.len())))
}
