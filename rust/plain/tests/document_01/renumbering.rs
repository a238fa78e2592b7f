//! Renumbering a sheet and a listing.

use crate::support::*;
use generate::limits::RECORD_BYTES;
use plain::{renumbered, renumbered_listing, Answer, INPUT, UNKNOWN};

#[test]
fn every_record_as_stated() {
    let original = sheet(
        &[INPUT, 0, INPUT, 1],
        &[gate(INVERTER, [2, 0], 1, 5), gate(AND, [0, 1], 3, 0)],
        &[(0, 0, 1), (0, 2, 0), (7, 0, 3), (7, 2, 2)],
        &[0, 1, 3],
    );
    let expected = sheet(
        &[1, INPUT, 0, INPUT],
        &[gate(AND, [3, 2], 0, 0), gate(INVERTER, [1, 0], 2, 5)],
        &[(0, 1, 0), (0, 3, 1), (7, 1, 2), (7, 3, 3)],
        &[0, 2, 3],
    );
    assert_eq!(renumbered(&original, &[3, 2, 1, 0], &[1, 0]), expected);
}

#[test]
fn unused_inputs_stay_0() {
    let constant = constant(UNKNOWN, 0, 2);
    let original = sheet(&[1, INPUT], &[constant], &[(0, 1, 0)], &[]);
    let renumbered = renumbered(&original, &[1, 0], &[0]);
    let [module] = renumbered.modules[..] else {
        panic!("{renumbered:?}");
    };
    assert_eq!((module.output, module.first, module.second), (1, 0, 0));
}

#[test]
fn a_listing_is_sorted_again() {
    // Two inputs change at tick 4 and one never does. Node 0 becomes 1, 1 becomes 2 and 2 becomes 0.
    let drive = [
        (0, 0, 1),
        (0, 1, 2),
        (0, 2, 0),
        (4, 1, 3),
        (4, 2, 2),
        (7, 2, 0),
    ];
    let original = sheet(&[INPUT; 3], &[], &drive, &[0, 1, 2]);
    let (answer, listing) = run(&original.encode(Edition::First), 9, 6 * RECORD_BYTES);
    assert_eq!(answer, Answer::Ran { count: 6 });
    let whole = [
        (0, 0, 1, 9),
        (0, 1, 2, 4),
        (0, 2, 0, 4),
        (4, 1, 3, 9),
        (4, 2, 2, 7),
        (7, 2, 0, 9),
    ];
    assert_eq!(records(&listing), whole);
    // Every record keeps its end.
    let renumbered = renumbered_listing(&listing, &[1, 2, 0]);
    let expected = [
        (0, 0, 0, 4),
        (0, 1, 1, 9),
        (0, 2, 2, 4),
        (4, 0, 2, 7),
        (4, 2, 3, 9),
        (7, 0, 0, 9),
    ];
    assert_eq!(records(&renumbered), expected);
}
