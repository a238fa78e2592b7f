//! Inputs and the drive.

use crate::support::*;
use plain::{INPUT, LOW};

#[test]
fn the_latest_event_stands() {
    let drive = [(0, 0, 1), (3, 0, 1), (5, 0, 3), (6, 0, 2)];
    let input = sheet(&[INPUT], &[], &drive, &[0]);
    assert_eq!(
        listed(&input, 9),
        [(0, 0, 1, 5), (5, 0, 3, 6), (6, 0, 2, 9)]
    );
}

#[test]
fn events_at_or_past_the_horizon_have_no_effect() {
    let drive = [(0, 0, 0), (4, 0, 1), (999_999, 0, 0)];
    let input = sheet(&[INPUT], &[], &drive, &[0]);
    assert_eq!(listed(&input, 4), [(0, 0, 0, 4)]);
    assert_eq!(listed(&input, 5), [(0, 0, 0, 4), (4, 0, 1, 5)]);
}

#[test]
fn records_rise_by_tick_and_then_by_node() {
    let modules = [gate(INVERTER, [2, 0], 0, 1), gate(BUFFER, [2, 0], 1, 0)];
    let drive = [(0, 2, 0), (1, 2, 1)];
    let sheet = sheet(&[LOW, LOW, INPUT], &modules, &drive, &[0, 1, 2]);
    let expected = [
        (0, 0, 0, 1),
        (0, 1, 0, 1),
        (0, 2, 0, 1),
        (1, 0, 1, 2),
        (1, 1, 1, 5),
        (1, 2, 1, 5),
        (2, 0, 0, 5),
    ];
    assert_eq!(listed(&sheet, 5), expected);
}

#[test]
fn only_watched_nodes_are_listed() {
    let modules = [gate(INVERTER, [0, 0], 0, 1)];
    assert_eq!(listed(&sheet(&[LOW], &modules, &[], &[]), 100), []);
}
