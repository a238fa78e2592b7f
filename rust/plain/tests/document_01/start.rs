//! Document 02, W-203: an input without an event at tick 0 is X until its first event.

use crate::support::*;
use generate::shared::{unknown_at_first, UNKNOWN_AT_FIRST};
use plain::{Answer, Sheet, HIGH, INPUT, LOW, UNKNOWN};

/// An input with these events, and nothing else.
fn input(drive: &[Change]) -> Sheet {
    sheet(&[INPUT], &[], drive, &[0])
}

fn cells(sheet: &Sheet, horizon: u32) -> Vec<Vec<u8>> {
    plain::cells(
        &plain::read(Edition::First, &sheet.encode(Edition::First)).unwrap(),
        horizon,
    )
}

#[test]
fn unknown_until_the_first_event() {
    let late = input(&[(3, 0, LOW), (5, 0, HIGH)]);
    assert_eq!(cells(&late, 7)[0], [2, 2, 2, 0, 0, 1, 1]);
    let expected = [(0, 0, 2, 3), (3, 0, 0, 5), (5, 0, 1, 7)];
    assert_eq!(listed(&late, 7), expected);
    // An event of X changes nothing.
    let unknown = input(&[(3, 0, UNKNOWN), (5, 0, HIGH)]);
    assert_eq!(listed(&unknown, 7), [(0, 0, 2, 5), (5, 0, 1, 7)]);
}

#[test]
fn unknown_throughout_without_an_event() {
    assert_eq!(cells(&input(&[]), 5)[0], [UNKNOWN; 5]);
    assert_eq!(listed(&input(&[]), 5), [(0, 0, 2, 5)]);
    // One past the horizon has no effect.
    assert_eq!(listed(&input(&[(5, 0, HIGH)]), 5), [(0, 0, 2, 5)]);
}

#[test]
fn a_memory_and_a_gate_see_it() {
    let sheet = unknown_at_first();
    assert_eq!(listed(&sheet, 6), UNKNOWN_AT_FIRST);
    let cells = cells(&sheet, 6);
    assert_eq!(cells[3], [3, 0, 0, 1, 1, 1]);
    assert_eq!(cells[4], [1, 1, 2, 2, 1, 1]);
}

#[test]
fn a_strict_check_refuses_it_and_a_check_does_not() {
    let both = |sheet: &Sheet| {
        let bytes = sheet.encode(Edition::First);
        [
            plain::check(Edition::First, &bytes),
            plain::check_strict(Edition::First, &bytes),
        ]
        .map(Answer::triple)
    };
    assert_eq!(both(&unknown_at_first()), [[0, 0, 0], [15, 0, 0]]);
    let mut sheet = unknown_at_first();
    sheet.drive.insert(0, event(0, 0, LOW));
    assert_eq!(both(&sheet), [[0, 0, 0], [15, 1, 0]]);
    sheet.drive.insert(1, event(0, 1, UNKNOWN));
    assert_eq!(both(&sheet), [[0, 0, 0], [0, 0, 0]]);
}
