//! The rules of the kinds.

use crate::support::*;
use plain::{rule, HIGH, LOW, NONE, UNKNOWN};

#[test]
fn examples_of_document_01() {
    assert_eq!(rule(NAND, 0, &[LOW, NONE]), HIGH);
    assert_eq!(rule(AND, 0, &[HIGH, NONE]), UNKNOWN);
    assert_eq!(rule(OR, 0, &[HIGH, NONE]), HIGH);
    assert_eq!(rule(XOR, 0, &[UNKNOWN, UNKNOWN]), UNKNOWN);
    assert_eq!(rule(INVERTER, 0, &[NONE]), UNKNOWN);
}

/// Document 02, W-202: the inverter of the first input for clock 1, Z for clock 0, and X for clock
/// X or Z. Document 01's example with clock X is among them, with its new value.
#[test]
fn every_clock() {
    for value in [LOW, HIGH, UNKNOWN, NONE] {
        let at = |clock| rule(CLOCKED_INVERTER, 0, &[value, clock]);
        assert_eq!(at(HIGH), rule(INVERTER, 0, &[value]));
        assert_eq!(at(LOW), NONE);
        assert_eq!(at(UNKNOWN), UNKNOWN);
        assert_eq!(at(NONE), UNKNOWN);
    }
}

/// The rules of two inputs written out: a row for each first input, a column for each second.
const TABLES: [(u8, [[u8; 4]; 4]); 6] = [
    (
        AND,
        [[0, 0, 0, 0], [0, 1, 2, 2], [0, 2, 2, 2], [0, 2, 2, 2]],
    ),
    (OR, [[0, 1, 2, 2], [1, 1, 1, 1], [2, 1, 2, 2], [2, 1, 2, 2]]),
    (
        XOR,
        [[0, 1, 2, 2], [1, 0, 2, 2], [2, 2, 2, 2], [2, 2, 2, 2]],
    ),
    (
        NAND,
        [[1, 1, 1, 1], [1, 0, 2, 2], [1, 2, 2, 2], [1, 2, 2, 2]],
    ),
    (
        NOR,
        [[1, 0, 2, 2], [0, 0, 0, 0], [2, 0, 2, 2], [2, 0, 2, 2]],
    ),
    (
        CLOCKED_INVERTER,
        [[3, 1, 2, 2], [3, 0, 2, 2], [3, 2, 2, 2], [3, 2, 2, 2]],
    ),
];

#[test]
fn two_inputs_as_tables() {
    for (kind, table) in TABLES {
        for (first, row) in (0..).zip(table) {
            for (second, expected) in (0..).zip(row) {
                let value = rule(kind, 0, &[first, second]);
                assert_eq!(value, expected, "kind {kind} of {first} and {second}");
            }
        }
    }
}

#[test]
fn one_input_and_none() {
    let of_each = |kind| [0, 1, 2, 3].map(|value| rule(kind, 0, &[value]));
    assert_eq!(of_each(BUFFER), [0, 1, 2, 2]);
    assert_eq!(of_each(INVERTER), [1, 0, 2, 2]);
    for value in 0..4 {
        assert_eq!(rule(CONSTANT, value, &[]), value);
    }
}

#[test]
fn sets_of_values() {
    for set in 0..16 {
        let members = [0, 1, 2, 3].map(|value| plain::in_set(set, value));
        let weights = members.iter().zip([1, 2, 4, 8]);
        let sum: u8 = weights
            .filter(|(&is, _)| is)
            .map(|(_, weight)| weight)
            .sum();
        assert_eq!(sum, set);
    }
}
