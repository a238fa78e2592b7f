//! Document 02, W-207: a sheet of one edition as a sheet of the other.

use crate::support::*;
use generate::conversions_by_hand;

#[test]
fn worked_out_by_hand() {
    for case in conversions_by_hand::cases() {
        let mut output = vec![UNTOUCHED; case.bytes];
        let answer = plain::convert(case.from, &case.sheet, &mut output).triple();
        let mut expected = case.written.clone();
        expected.resize(case.bytes, UNTOUCHED);
        assert_eq!(answer, case.answer, "{}", case.whence());
        assert_eq!(output, expected, "{}", case.whence());
    }
}
