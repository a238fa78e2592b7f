//! Document 02, W-204: a record has the end of its value.

use crate::support::*;
use generate::ends_by_hand;

#[test]
fn worked_out_by_hand() {
    for case in ends_by_hand::cases() {
        let (answer, listing) = run(&case.sheet.encode(Edition::First), case.horizon, case.bytes);
        assert_eq!(answer.triple(), case.answer, "{}", case.name);
        assert_eq!(written(answer, &listing), case.records, "{}", case.name);
    }
}

/// The bytes of a record: tick, node, value and end, numbers with the low byte first.
#[test]
fn bytes_of_a_record() {
    let input = sheet(
        &[plain::INPUT],
        &[],
        &[(0x0304, 0, 3), (0x0A_0B0C, 0, 1)],
        &[0],
    );
    let (_, listing) = run(&input.encode(Edition::First), 1_000_000, 30);
    assert_eq!(listing[..10], [0, 0, 0, 0, 0, 2, 0x04, 0x03, 0, 0]);
    assert_eq!(
        listing[10..20],
        [0x04, 0x03, 0, 0, 0, 3, 0x0C, 0x0B, 0x0A, 0]
    );
    assert_eq!(
        listing[20..],
        [0x0C, 0x0B, 0x0A, 0, 0, 1, 0x40, 0x42, 0x0F, 0]
    );
}
