//! Document 02, W-209: nodes with several drivers.

use crate::support::*;
use generate::drivers_by_hand;
use generate::every::{joined, joins, Joins, PAIRS, TRIPLES};
use plain::{renumbered, timelines, Answer, Timelines, HIGH, INPUT, LOW, NONE};

#[test]
fn worked_out_by_hand() {
    for case in drivers_by_hand::cases() {
        for edition in Edition::ALL {
            let sheet = case.sheet.encode(edition);
            let (answer, listing) = run_in(edition, &sheet, case.horizon, case.bytes);
            assert_eq!(answer.triple(), case.answer, "{}", case.name);
            assert_eq!(written(answer, &listing), case.records, "{}", case.name);
        }
    }
}

/// What a node has of the values that its drivers say, two or three of them, whatever their delays.
fn every_value<const N: usize>(delays: [u16; N]) {
    let Joins {
        sheet,
        horizon,
        values,
    } = joins(delays);
    let cells = plain::cells(&sheet, horizon);
    for (tick, said) in values {
        let cell = cells[N][tick as usize];
        assert_eq!(cell, joined(said), "{said:?} after {delays:?}");
    }
}

#[test]
fn every_pair_and_triple_of_values() {
    PAIRS.into_iter().for_each(every_value);
    TRIPLES.into_iter().for_each(every_value);
}

/// A buffer and an inverter of an input, onto one node with delay 3.
fn clash() -> plain::Sheet {
    let modules = [gate(BUFFER, [0], 1, 3), gate(INVERTER, [0], 1, 3)];
    let drive = [(0, 0, LOW), (2, 0, HIGH)];
    sheet(&[INPUT, HIGH], &modules, &drive, &[1])
}

#[test]
fn contributions_have_timelines_of_their_own() {
    let Timelines {
        cells,
        contributions,
    } = timelines(&clash(), 7);
    assert_eq!(contributions[0], [1, 1, 1, 0, 0, 1, 1]);
    assert_eq!(contributions[1], [1, 1, 1, 1, 1, 0, 0]);
    assert_eq!(cells[1], [1, 1, 1, 2, 2, 2, 2]);
}

/// The buffer changes at ticks 3 and 5, the inverter at 5. The node changes at 3 alone.
#[test]
fn pending_changes_are_counted_on_contributions() {
    let sheet = clash();
    let pending = plain::pending(&sheet, &timelines(&sheet, 7));
    assert_eq!(pending, [1, 1, 3, 2, 2, 0, 0]);
    // A change at the horizon is none.
    let pending = plain::pending(&sheet, &timelines(&sheet, 5));
    assert_eq!(pending, [1, 1, 1, 0, 0]);
}

/// Two equal records are two modules.
#[test]
fn equal_records_are_counted_twice() {
    let modules = [gate(BUFFER, [0], 1, 2); 2];
    let sheet = sheet(&[INPUT, NONE], &modules, &[(0, 0, HIGH)], &[1]);
    let pending = plain::pending(&sheet, &timelines(&sheet, 5));
    assert_eq!(pending, [2, 2, 0, 0, 0]);
    assert_eq!(listed(&sheet, 5), [(0, 1, 3, 2), (2, 1, 1, 5)]);
}

#[test]
fn a_node_is_driven_by_one_module_or_more() {
    let drivers = [gate(BUFFER, [0], 1, 1); 3];
    for (byte, answer) in [
        (LOW, Answer::Ran { count: 0 }.triple()),
        (INPUT, [10, 1, 0]),
    ] {
        let sheet = sheet(&[INPUT, byte], &drivers, &[(0, 0, LOW)], &[]);
        for edition in Edition::ALL {
            let bytes = sheet.encode(edition);
            assert_eq!(plain::check(edition, &bytes).triple(), answer);
            assert_eq!(plain::check_strict(edition, &bytes).triple(), answer);
        }
    }
}

#[test]
fn renumbering_keeps_every_driver() {
    let original = sheet(
        &[INPUT, LOW, NONE],
        &[
            gate(CLOCKED_INVERTER, [1, 0], 2, 1),
            gate(INVERTER, [0], 1, 2),
            gate(CLOCKED_INVERTER, [0, 1], 2, 4),
        ],
        &[(0, 0, 0)],
        &[2],
    );
    let expected = sheet(
        &[NONE, INPUT, LOW],
        &[
            gate(CLOCKED_INVERTER, [1, 2], 0, 4),
            gate(INVERTER, [1], 2, 2),
            gate(CLOCKED_INVERTER, [2, 1], 0, 1),
        ],
        &[(0, 1, 0)],
        &[0],
    );
    assert_eq!(renumbered(&original, &[1, 2, 0], &[2, 1, 0]), expected);
}
