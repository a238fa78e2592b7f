//! Sheets to be converted: the plain simulator, which goes through their bytes, gives what they hold
//! written down in the other edition, and the mixture meets every refusal, 22 at modules that stand
//! anywhere in the list.

use std::collections::BTreeSet;

use generate::{assert_met, conversions_by_hand, Generator};
use plain::{Answer, Edition, Sheet};

/// Enough for every sheet in either edition.
const AMPLE: usize = 10_000;

fn refused(number: u32, place: usize) -> Result<Vec<u8>, Answer> {
    Err(Answer::Refused {
        number,
        place: place as u32,
        count: 0,
    })
}

/// What the plain simulator writes, or its refusal.
fn converted(from: Edition, sheet: &[u8], bytes: usize) -> Result<Vec<u8>, Answer> {
    let mut output = vec![0; bytes];
    match plain::convert(from, sheet, &mut output) {
        Answer::Ran { count } => {
            output.truncate(count as usize);
            Ok(output)
        }
        refusal => Err(refusal),
    }
}

/// The first module that the other edition lacks.
fn first_lacked(sheet: &Sheet, from: Edition) -> Option<usize> {
    let greatest = from.other().greatest_kind();
    let mut modules = sheet.modules.iter();
    modules.position(|module| module.kind > greatest)
}

/// The same from what the sheet's bytes were read as.
fn from_what_is_read(from: Edition, sheet: &[u8]) -> Result<Vec<u8>, Answer> {
    let sheet = plain::read(from, sheet)?;
    match first_lacked(&sheet, from) {
        Some(module) => {
            let before = from.module_bytes() * module;
            refused(22, 4 + sheet.nodes.len() + before)
        }
        None => Ok(sheet.encode(from.other())),
    }
}

#[test]
fn by_bytes_and_by_what_is_read() {
    for from in Edition::ALL {
        let mut generator = Generator::of(from, 60);
        for place in 0..50_000 {
            let sheet = generator.to_convert();
            let expected = from_what_is_read(from, &sheet);
            let whence = format!("{from:?}, sheet {place}");
            assert_eq!(converted(from, &sheet, AMPLE), expected, "{whence}");
            let Ok(bytes) = &expected else {
                assert_eq!(converted(from, &sheet, 0), expected, "{whence}");
                continue;
            };
            let needed = bytes.len();
            let too_short = refused(23, needed);
            assert_eq!(converted(from, &sheet, needed - 1), too_short, "{whence}");
            let back = converted(from.other(), bytes, sheet.len());
            assert_eq!(back, Ok(sheet), "{whence}");
        }
    }
}

/// How the first module stands that the other edition lacks: 0 for alone, 1 for first, 2 for between others,
/// 3 for last.
fn standing(module: usize, modules: usize) -> usize {
    match (module, modules - 1 - module) {
        (0, 0) => 0,
        (0, _) => 1,
        (_, 0) => 3,
        _ => 2,
    }
}

fn mixture(from: Edition) {
    let mut generator = Generator::of(from, 61);
    let mut met = [0; 24];
    let mut lacked = [0; 4];
    for _ in 0..50_000 {
        let bytes = generator.to_convert();
        let number = match converted(from, &bytes, AMPLE) {
            Ok(_) => 0,
            Err(refusal) => refusal.triple()[0],
        };
        met[number as usize] += 1;
        let Ok(sheet) = plain::read(from, &bytes) else {
            continue;
        };
        if let Some(module) = first_lacked(&sheet, from) {
            lacked[standing(module, sheet.modules.len())] += 1;
        }
    }
    println!("{from:?}: answers by number, 0 for converted: {met:?}; of 22 {lacked:?}");
    // The output is ample.
    let never = match from {
        Edition::First => &[1, 9, 15, 19, 20, 21, 22, 23][..],
        Edition::Second => &[1, 9, 15, 19, 20, 21, 23],
    };
    assert_met(&met, 100, never, &format!("{from:?}"));
    assert!(met[0] >= 10_000, "{from:?}: {met:?}");
    match from {
        Edition::First => assert_eq!(lacked, [0; 4]),
        Edition::Second => assert!(lacked.iter().all(|&met| met >= 500), "{lacked:?}"),
    }
}

#[test]
fn every_refusal_is_met_often() {
    Edition::ALL.into_iter().for_each(mixture);
}

#[test]
fn every_refusal_has_a_case() {
    for from in Edition::ALL {
        let mut cases = conversions_by_hand::cases();
        cases.retain(|case| case.from == from);
        let numbers: BTreeSet<u32> = cases.iter().map(|case| case.answer[0]).collect();
        let mut expected: BTreeSet<u32> = [0, 22, 23].into_iter().chain(2..=18).collect();
        expected.remove(&9);
        expected.remove(&15);
        if from == Edition::First {
            expected.remove(&22);
        }
        assert_eq!(numbers, expected, "{from:?}");
    }
}
