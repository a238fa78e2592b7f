//! The longest sheets, and the most modules.

use compare::Outcome;
use generate::limits::LONGEST_SHEETS;
use generate::sheets::*;
use generate::Generator;
use plain::Edition;

use crate::agreed::agreed;

/// Every section is full: with 256 modules so many bytes are gained and lost.
#[test]
fn the_longest_sheets() {
    let mut generator = Generator::new(3);
    for _ in 0..20 {
        let sheet = generator.longest();
        let [first, second] = Edition::ALL.map(|edition| sheet.encode(edition));
        assert_eq!([first.len(), second.len()], LONGEST_SHEETS);
        for (from, given, other) in [
            (Edition::First, &first, &second),
            (Edition::Second, &second, &first),
        ] {
            let needed = other.len();
            let into = |sheet: &[u8], bytes| agreed(from, sheet, bytes, "every section full");
            let whole = Outcome {
                answer: [0, 0, needed as u32],
                written: other.clone(),
            };
            assert_eq!(into(given, needed), whole);
            assert_eq!(into(given, needed + 1), whole);
            assert_eq!(into(given, needed - 1).answer, [23, needed as u32, 0]);
            let left_over = [&given[..], &[0]].concat();
            let refused = [17, given.len() as u32, 0];
            assert_eq!(into(&left_over, needed + 1).answer, refused);
        }
    }
}

/// Each of 256 modules in turn is the only one with a kind that the first edition lacks.
#[test]
fn each_of_256_modules() {
    let outputs = 0..=u8::MAX;
    let modules: Vec<_> = outputs.map(|node| gate(BUFFER, [node], node, 1)).collect();
    let mut sheet = sheet(&[0; 256], &modules, &[], &[]);
    for module in 0..256 {
        sheet.modules[module].kind = AND_3;
        let bytes = sheet.encode(Edition::Second);
        let place = 4 + 256 + 8 * module as u32;
        let outcome = agreed(Edition::Second, &bytes, 3_000, "one of 256");
        assert_eq!(outcome.answer, [22, place, 0]);
        sheet.modules[module].kind = BUFFER;
    }
    let bytes = sheet.encode(Edition::Second);
    let needed = 4 + 256 + 7 * 256 + 4;
    let outcome = agreed(Edition::Second, &bytes, 3_000, "none of 256");
    assert_eq!(outcome.answer, [0, 0, needed]);
}
