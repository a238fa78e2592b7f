//! Sheets written out in both editions, and what a conversion refuses, worked out by hand.

use compare::Outcome;
use generate::conversions_by_hand;

use crate::agreed::agreed;

#[test]
fn worked_out_by_hand() {
    let cases = conversions_by_hand::cases();
    for case in &cases {
        let whence = case.whence();
        let Outcome { answer, written } = agreed(case.from, &case.sheet, case.bytes, &whence);
        assert_eq!(answer, case.answer, "{whence}");
        assert_eq!(written, case.written, "{whence}");
    }
    assert!(cases.len() >= 300, "{} cases", cases.len());
}
