//! Reports written out byte for byte, and what is refused, worked out by hand.

use generate::pulses_by_hand;
use generate::sheets::records;

use crate::agreed::{agreed, Given, Outcome};

#[test]
fn worked_out_by_hand() {
    let cases = pulses_by_hand::cases();
    for case in &cases {
        let whence = case.whence();
        let given = Given {
            edition: case.edition,
            sheet: &case.sheet,
            horizon: case.horizon,
            width: case.width,
            listing_bytes: case.listing_bytes,
            report_bytes: case.report_bytes,
        };
        let Outcome {
            answer,
            listing,
            report,
        } = agreed(&given, &whence);
        assert_eq!(answer, case.answer, "{whence}");
        assert_eq!(records(&listing), case.records, "{whence}");
        assert_eq!(report, case.report, "{whence}");
    }
    assert!(cases.len() >= 900, "{} cases", cases.len());
}
