//! The order of the refusals, where the conditions of all are met at once.

use generate::sheets::{gate, sheet, INVERTER};
use generate::LoadInput;
use plain::{worked_run, Edition, LOW};

use crate::agreed::agreed;

/// One after the other is mended: the sheet, the count of events, the output. The worked run's sheet has
/// one input, and two events give it three of 6 bytes in place of two.
#[test]
fn one_refusal_after_the_other() {
    for edition in Edition::ALL {
        let whole = worked_run::sheet().encode(edition);
        let needed = whole.len() + 6;
        let asked = |sheet: &[u8], n, length| {
            let input = LoadInput {
                sheet: sheet.to_vec(),
                seed: 1,
                n,
            };
            agreed(edition, &input, length, "one after the other").answer
        };
        let cut_short = &whole[..whole.len() - 5];
        let last_event = whole.len() - 4 - 6;
        let ends_inside = [2, last_event as u32, 0];
        let too_short = [23, needed as u32, 0];
        assert_eq!(asked(cut_short, 1_024, needed - 1), ends_inside);
        assert_eq!(asked(&whole, 1_024, needed - 1), [26, 0, 0]);
        assert_eq!(asked(&whole, 2, needed - 1), too_short);
        assert_eq!(asked(&whole, 2, needed), [0, 0, needed as u32]);
        // Each alone is refused alike, and so are two at once.
        assert_eq!(asked(cut_short, 2, needed), ends_inside);
        assert_eq!(asked(cut_short, 1_024, 10_000), ends_inside);
        assert_eq!(asked(cut_short, u32::MAX, 0), ends_inside);
        assert_eq!(asked(cut_short, 2, needed - 1), ends_inside);
        assert_eq!(asked(&whole, 1_024, 10_000), [26, 0, 0]);
        assert_eq!(asked(&whole, u32::MAX, 0), [26, 0, 0]);
        assert_eq!(asked(&whole, 2, 0), too_short);
    }
}

/// The last refusal of a check comes before events that nothing takes: an inverter without delay onto its own
/// input leaves no input at all.
#[test]
fn a_loop_before_events_for_no_input() {
    for edition in Edition::ALL {
        let asked = |delay, n, length| {
            let ring = sheet(&[LOW], &[gate(INVERTER, [0], 0, delay)], &[], &[]);
            let input = LoadInput {
                sheet: ring.encode(edition),
                seed: 1,
                n,
            };
            agreed(edition, &input, length, "a loop").answer
        };
        let needed = 9 + edition.module_bytes() as u32;
        assert_eq!(asked(0, 1, 0), [18, 0, 0]);
        assert_eq!(asked(0, 0, 100), [18, 0, 0]);
        assert_eq!(asked(1, 1, 0), [26, 0, 0]);
        assert_eq!(asked(1, 0, 0), [23, needed, 0]);
        assert_eq!(asked(1, 0, 100), [0, 0, needed]);
    }
}
