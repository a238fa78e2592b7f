//! The order of the refusals, where the conditions of all are met at once.

use generate::limits::PULSE_BYTES;
use generate::shared::{four_buffers, toggled};
use generate::sheets::constant;
use plain::{worked_run, Edition, HIGH};

use crate::agreed::{agreed, Given};

/// One after the other is mended: the horizon, the width, the sheet, the listing, the report. The records
/// up to the tick that has no room have a pulse of 5 ticks.
#[test]
fn one_refusal_after_the_other() {
    let first = worked_run::SHEET;
    let cut_short = &first[..26];
    let asked = |horizon, width, sheet, listing_bytes, report_bytes| {
        let given = Given {
            edition: Edition::First,
            sheet,
            horizon,
            width,
            listing_bytes,
            report_bytes,
        };
        agreed(&given, "one after the other").answer
    };
    assert_eq!(asked(0, 0, cut_short, 59, 8), [1, 0, 0]);
    assert_eq!(asked(12, 0, cut_short, 59, 8), [24, 0, 0]);
    assert_eq!(asked(12, 6, cut_short, 59, 8), [2, 21, 0]);
    assert_eq!(asked(12, 6, first, 59, 8), [19, 11, 5]);
    assert_eq!(asked(12, 6, first, 60, 8), [25, 2, 6]);
    assert_eq!(asked(12, 6, first, 60, 18), [0, 0, 2]);
    // Each alone is refused alike.
    assert_eq!(asked(1_000_001, 10_001, first, 60, 18), [1, 0, 0]);
    assert_eq!(asked(12, 10_001, first, 60, 18), [24, 0, 0]);
    assert_eq!(asked(12, 10_001, first, 0, 0), [24, 0, 0]);
    assert_eq!(asked(12, 6, cut_short, 60, 18), [2, 21, 0]);
    assert_eq!(asked(12, 6, first, 59, 18), [19, 11, 5]);
}

/// 4,097 changes are pending after tick 1,023, by when the input has had 1,022 pulses of a tick.
#[test]
fn too_crowded_before_a_short_report() {
    let mut modules = four_buffers();
    modules.push(constant(HIGH, 5, 5_000));
    let sheet = toggled(&modules);
    for edition in Edition::ALL {
        let sheet = sheet.encode(edition);
        let asked = |horizon, report_bytes| {
            let given = Given {
                edition,
                sheet: &sheet,
                horizon,
                width: 2,
                listing_bytes: 60_000,
                report_bytes,
            };
            agreed(&given, "too crowded").answer
        };
        assert_eq!(asked(10_000, 0), [20, 1_023, 1_024]);
        assert_eq!(asked(10_000, 60_000), [20, 1_023, 1_024]);
        // To a horizon where no change is pending the report is made.
        assert_eq!(asked(1_024, 0), [25, 1_022, 1_024]);
        assert_eq!(asked(1_024, PULSE_BYTES * 1_022), [0, 0, 1_022]);
    }
}
