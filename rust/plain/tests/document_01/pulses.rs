//! Document 02, W-208: pulses too short for the coil.

use crate::support::*;
use generate::limits::RECORD_BYTES;
use generate::pulses_by_hand;

#[test]
fn worked_out_by_hand() {
    for case in pulses_by_hand::cases() {
        let [mut listing, mut report] =
            [case.listing_bytes, case.report_bytes].map(|bytes| vec![UNTOUCHED; bytes]);
        let answer = plain::pulses(
            case.edition,
            &case.sheet,
            case.horizon,
            case.width,
            &mut listing,
            &mut report,
        );
        assert_eq!(answer.triple(), case.answer, "{}", case.whence());
        let (listed, rest) = listing.split_at(RECORD_BYTES * case.records.len());
        assert_eq!(records(listed), case.records, "{}", case.whence());
        assert!(rest.iter().all(|&byte| byte == UNTOUCHED));
        let mut expected = case.report.clone();
        expected.resize(case.report_bytes, UNTOUCHED);
        assert_eq!(report, expected, "{}", case.whence());
    }
}
