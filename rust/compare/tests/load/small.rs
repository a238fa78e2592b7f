//! Small sheets, cut short everywhere and with every byte changed to every value.

use std::collections::BTreeSet;

use generate::{by_hand, every, Generator, LoadInput, Size};
use plain::{worked_run, Edition, Sheet};

use crate::agreed::agreed;

/// More bytes than any of these sheets needs.
const AMPLE: usize = 1_000;

/// Into an output of no bytes and into an ample one, without events to draw, with a few, and with as many
/// as one input takes: the numbers, on which both simulators agree.
fn agreed_numbers(edition: Edition, sheet: &[u8], whence: &str) -> BTreeSet<u32> {
    let mut numbers = BTreeSet::new();
    for (n, length) in [(0, 0), (0, AMPLE), (3, 0), (3, AMPLE), (1_023, 0)] {
        let input = LoadInput {
            sheet: sheet.to_vec(),
            seed: 9,
            n,
        };
        numbers.insert(agreed(edition, &input, length, whence).answer[0]);
    }
    numbers
}

#[test]
fn every_truncation() {
    for edition in Edition::ALL {
        let mut generator = Generator::of(edition, 3);
        let mut sheets = [Size::Tiny, Size::Small, Size::Medium]
            .map(|size| generator.valid(size))
            .to_vec();
        sheets.extend([
            worked_run::sheet(),
            by_hand::start(),
            by_hand::two_drivers(),
        ]);
        for sheet in sheets {
            for cut in every::truncations(&sheet.encode(edition)) {
                let numbers = agreed_numbers(edition, cut, "cut short");
                assert_eq!(numbers.len(), 1, "{numbers:?}");
                assert!(numbers.iter().all(|number| (2..=18).contains(number)));
            }
        }
    }
}

/// The numbers that are given where any one byte of the sheet is changed.
fn changed(edition: Edition, sheet: &Sheet) -> BTreeSet<u32> {
    let bytes = sheet.encode(edition);
    every::single_bytes(&bytes)
        .flat_map(|sheet| agreed_numbers(edition, &sheet, "one byte changed"))
        .collect()
}

#[test]
fn every_value_of_every_byte() {
    for edition in Edition::ALL {
        for sheet in [
            worked_run::sheet(),
            by_hand::start(),
            by_hand::two_drivers(),
        ] {
            let numbers = changed(edition, &sheet);
            assert!(numbers.is_superset(&[0, 23].into()), "{numbers:?}");
            assert!(numbers.contains(&2) && !numbers.contains(&15));
        }
    }
    // With its two inputs 1,023 events are one too many.
    let numbers = changed(Edition::Second, &by_hand::start_2());
    assert!(numbers.is_superset(&[0, 23, 26].into()), "{numbers:?}");
}
