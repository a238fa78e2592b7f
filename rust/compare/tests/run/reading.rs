//! Refusals of reading: a run gives those that checking gives, after 1 and before any other.

use generate::limits::{LONGEST_SHEETS, RECORD_BYTES};
use generate::{by_hand, every, room_for_all, Generator, Size};
use plain::{worked_run, Edition};

use crate::agreed::{agreed, proved, Outcome};

const NOTHING_READ: [u32; 3] = [1, 0, 0];

#[test]
fn answers_worked_out_by_hand() {
    let cases = by_hand::cases();
    let length = RECORD_BYTES * 1_000;
    for case in &cases {
        let Outcome { answer, listing } = agreed(case.edition, &case.sheet, 9, length, case.name);
        let [number, place, _] = answer;
        assert_eq!([number, place, 0], case.answer, "{}", case.name);
        assert!(number == 0 || listing.is_empty(), "{}", case.name);
        for horizon in [0, 1_000_001, u32::MAX] {
            let outcome = proved(case.edition, &case.sheet, horizon, length, case.name);
            assert_eq!(outcome.answer, NOTHING_READ, "{}", case.name);
        }
    }
    for edition in Edition::ALL {
        let of_edition = cases.iter().filter(|case| case.edition == edition);
        assert!(of_edition.count() >= 80, "{edition:?}");
    }
    assert!(cases.len() >= 190, "{} cases", cases.len());
}

#[test]
fn every_truncation() {
    for edition in Edition::ALL {
        let mut generator = Generator::of(edition, 2);
        let sizes = [Size::Tiny, Size::Small, Size::Medium, Size::Full];
        let mut sheets = sizes.map(|size| generator.valid(size)).to_vec();
        sheets.push(generator.several_drivers(Size::Small));
        sheets.push(worked_run::sheet());
        for sheet in sheets {
            for cut in every::truncations(&sheet.encode(edition)) {
                let outcome = agreed(edition, cut, 5, 600, "cut short");
                assert_ne!(outcome.answer[0], 0);
            }
        }
    }
}

#[test]
fn every_value_of_every_byte() {
    let horizon = worked_run::HORIZON;
    let length = RECORD_BYTES * 10;
    for edition in Edition::ALL {
        for sheet in [
            worked_run::sheet(),
            by_hand::start(),
            by_hand::start_2(),
            by_hand::two_drivers(),
        ] {
            for changed in every::single_bytes(&sheet.encode(edition)) {
                agreed(edition, &changed, horizon, length, "one byte changed");
            }
        }
    }
}

#[test]
fn no_bytes_and_no_room() {
    for edition in Edition::ALL {
        let answer = |sheet: &[u8], horizon| agreed(edition, sheet, horizon, 0, "no room").answer;
        assert_eq!(answer(&[], 0), [1, 0, 0]);
        assert_eq!(answer(&[], 1), [2, 0, 0]);
        assert_eq!(answer(&[], 1_000_000), [2, 0, 0]);
        assert_eq!(answer(&worked_run::sheet().encode(edition), 1), [19, 0, 0]);
    }
}

#[test]
fn the_longest_sheets() {
    for (edition, longest) in Edition::ALL.into_iter().zip(LONGEST_SHEETS) {
        let mut generator = Generator::of(edition, 3);
        for _ in 0..20 {
            let sheet = generator.longest().encode(edition);
            assert_eq!(sheet.len(), longest);
            let bytes = room_for_all(edition, &sheet, 40);
            let outcome = agreed(edition, &sheet, 40, bytes, "every section full");
            assert!([0, 20].contains(&outcome.answer[0]), "{:?}", outcome.answer);
            let left_over = [&sheet[..], &[0]].concat();
            let outcome = agreed(edition, &left_over, 40, bytes, "one byte left over");
            assert_eq!(outcome.answer, [17, longest as u32, 0]);
        }
    }
}
