//! Memories.

use crate::support::*;
use plain::{Sheet, INPUT, UNKNOWN};

/// A memory that passes its data input through all four values, one a tick, while its control
/// input does what `control` says, one value a tick.
fn over(control: [u8; 8], set: u8, delay: u16) -> Sheet {
    let mut drive = Vec::new();
    for (tick, value) in (0..).zip(control) {
        drive.push((tick, 0, (tick % 4) as u8));
        drive.push((tick, 1, value));
    }
    let memory = memory(set, [0, 1], 2, delay);
    sheet(&[INPUT, INPUT, UNKNOWN], &[memory], &drive, &[2])
}

fn memory_cells(control: [u8; 8], set: u8, delay: u16) -> Vec<u8> {
    let sheet = plain::read(
        Edition::First,
        &over(control, set, delay).encode(Edition::First),
    )
    .unwrap();
    plain::cells(&sheet, 8)[2].clone()
}

#[test]
fn the_whole_set_passes_everything() {
    let control = [0, 1, 2, 3, 0, 1, 2, 3];
    assert_eq!(memory_cells(control, 15, 0), [0, 1, 2, 3, 0, 1, 2, 3]);
    assert_eq!(memory_cells(control, 15, 3), [2, 2, 2, 0, 1, 2, 3, 0]);
}

#[test]
fn the_empty_set_keeps_the_initial_value() {
    assert_eq!(memory_cells([0, 1, 2, 3, 0, 1, 2, 3], 0, 0), [UNKNOWN; 8]);
}

#[test]
fn it_holds_what_stood_when_the_set_was_met_last() {
    let control = [0, 1, 0, 0, 0, 1, 1, 0];
    assert_eq!(memory_cells(control, 0b0010, 0), [2, 1, 1, 1, 1, 1, 2, 2]);
    assert_eq!(memory_cells(control, 0b0010, 2), [2, 2, 2, 1, 1, 1, 1, 1]);
}

#[test]
fn no_value_is_a_value_of_its_own() {
    // Z passes through as data, and as control it is not X.
    let control = [2, 2, 0, 3, 2, 0, 2, 2];
    assert_eq!(memory_cells(control, 0b1000, 0), [2, 2, 2, 3, 3, 3, 3, 3]);
    assert_eq!(memory_cells(control, 0b0100, 0), [0, 1, 1, 1, 0, 0, 2, 3]);
}
