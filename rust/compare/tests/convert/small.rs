//! Small sheets, cut short everywhere and with every byte changed to every value.

use std::collections::BTreeSet;

use generate::{by_hand, every, Generator, Size};
use plain::{worked_run, Edition, Sheet};

use crate::agreed::agreed;

/// More bytes than any of these sheets needs.
const AMPLE: usize = 200;

/// Into an output of no bytes and into an ample one: the answers, on which both simulators agree.
fn agreed_twice(from: Edition, sheet: &[u8], whence: &str) -> [[u32; 3]; 2] {
    [0, AMPLE].map(|length| agreed(from, sheet, length, whence).answer)
}

#[test]
fn every_truncation() {
    for from in Edition::ALL {
        let mut generator = Generator::of(from, 2);
        let mut sheets = [Size::Tiny, Size::Small, Size::Medium]
            .map(|size| generator.valid(size))
            .to_vec();
        sheets.extend([worked_run::sheet(), by_hand::start(), by_hand::start_2()]);
        sheets.extend([
            by_hand::two_drivers(),
            generator.several_drivers(Size::Small),
        ]);
        for sheet in sheets {
            for cut in every::truncations(&sheet.encode(from)) {
                for [number, ..] in agreed_twice(from, cut, "cut short") {
                    assert!((2..=18).contains(&number), "{number}");
                }
            }
        }
    }
}

/// The places that 22 is given with where any one byte of the sheet is changed, and the numbers.
fn changed(from: Edition, sheet: &Sheet) -> (BTreeSet<u32>, BTreeSet<u32>) {
    let (mut places, mut numbers) = (BTreeSet::new(), BTreeSet::new());
    for changed in every::single_bytes(&sheet.encode(from)) {
        for [number, place, _] in agreed_twice(from, &changed, "one byte changed") {
            numbers.insert(number);
            places.extend((number == 22).then_some(place));
        }
    }
    (places, numbers)
}

/// In the second edition each module in turn gets a kind that the first lacks. A multiplexer with a third
/// input would have to change in two bytes to be converted.
#[test]
fn every_value_of_every_byte() {
    for (sheet, records, is_converted) in [
        (worked_run::sheet(), &[6][..], true),
        (by_hand::start(), &[7, 15], true),
        (by_hand::start_2(), &[8, 16], false),
        (by_hand::two_drivers(), &[7, 15, 23], true),
    ] {
        let (places, numbers) = changed(Edition::Second, &sheet);
        assert_eq!(places, records.iter().copied().collect());
        assert_eq!(numbers.contains(&0), is_converted);
        assert_eq!(numbers.contains(&23), is_converted);
        let (places, numbers) = changed(Edition::First, &sheet);
        assert_eq!(places, BTreeSet::new());
        assert!(numbers.contains(&0) && numbers.contains(&23));
    }
}
