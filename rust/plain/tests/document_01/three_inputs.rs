//! Document 02, W-205: the rules of kinds 10 to 15.

use crate::support::*;
use plain::{rule, HIGH, LOW, NONE, UNKNOWN};

const VALUES: [u8; 4] = [LOW, HIGH, UNKNOWN, NONE];

/// Every triple of values.
fn triples() -> impl Iterator<Item = [u8; 3]> {
    let pairs = VALUES
        .into_iter()
        .flat_map(|first| VALUES.map(|second| [first, second]));
    pairs.flat_map(|[first, second]| VALUES.map(|third| [first, second, third]))
}

#[test]
fn telling_values() {
    let examples = [
        (AND_3, [1, 1, 1], HIGH),
        (AND_3, [1, 1, 0], LOW),
        (AND_3, [2, 3, 0], LOW),
        (AND_3, [1, 1, 2], UNKNOWN),
        (AND_3, [1, 3, 1], UNKNOWN),
        (OR_3, [0, 0, 0], LOW),
        (OR_3, [0, 0, 1], HIGH),
        (OR_3, [2, 3, 1], HIGH),
        (OR_3, [0, 2, 0], UNKNOWN),
        (OR_3, [3, 0, 0], UNKNOWN),
        (XOR_3, [0, 0, 0], LOW),
        (XOR_3, [0, 0, 1], HIGH),
        (XOR_3, [1, 0, 1], LOW),
        (XOR_3, [1, 1, 1], HIGH),
        (XOR_3, [1, 1, 2], UNKNOWN),
        (XOR_3, [3, 1, 1], UNKNOWN),
        (NAND_3, [1, 1, 1], LOW),
        (NAND_3, [1, 1, 0], HIGH),
        (NAND_3, [0, 2, 3], HIGH),
        (NAND_3, [1, 1, 3], UNKNOWN),
        (NOR_3, [0, 0, 0], HIGH),
        (NOR_3, [0, 1, 0], LOW),
        (NOR_3, [1, 2, 3], LOW),
        (NOR_3, [0, 0, 3], UNKNOWN),
    ];
    for (kind, inputs, expected) in examples {
        assert_eq!(rule(kind, 0, &inputs), expected, "kind {kind}: {inputs:?}");
    }
}

/// No input's place matters to kinds 10 to 14, and Z is X to all.
#[test]
fn any_order_and_z_as_x() {
    for kind in AND_3..=MULTIPLEXER {
        for inputs in triples() {
            let value = rule(kind, 0, &inputs);
            let seen = inputs.map(|value| value.min(UNKNOWN));
            assert_eq!(value, rule(kind, 0, &seen), "kind {kind}: {inputs:?}");
            assert_ne!(value, NONE, "kind {kind}: {inputs:?}");
            let [first, second, third] = inputs;
            for turned in [[second, first, third], [second, third, first]] {
                let same = value == rule(kind, 0, &turned);
                assert!(kind == MULTIPLEXER || same, "kind {kind}: {inputs:?}");
            }
        }
    }
}

/// "Kinds 10 to 14 follow the two-input rules over all three": two first, and then the third.
#[test]
fn the_two_input_rules_over_all_three() {
    let kinds = [
        (AND_3, AND, AND),
        (OR_3, OR, OR),
        (XOR_3, XOR, XOR),
        (NAND_3, AND, NAND),
        (NOR_3, OR, NOR),
    ];
    for (kind, of_two, then) in kinds {
        for [first, second, third] in triples() {
            let both = rule(of_two, 0, &[first, second]);
            let expected = rule(then, 0, &[both, third]);
            assert_eq!(rule(kind, 0, &[first, second, third]), expected);
        }
    }
}

/// What the multiplexer gives for every pair of the first and second input: a row for each first.
fn chosen_by(third: u8) -> [[u8; 4]; 4] {
    VALUES.map(|first| VALUES.map(|second| rule(MULTIPLEXER, 0, &[first, second, third])))
}

#[test]
fn second_input_if_the_third_is_1() {
    let expected = [[0, 1, 2, 2], [0, 1, 2, 2], [0, 1, 2, 2], [0, 1, 2, 2]];
    assert_eq!(chosen_by(HIGH), expected);
}

#[test]
fn first_if_it_is_0() {
    let expected = [[0, 0, 0, 0], [1, 1, 1, 1], [2, 2, 2, 2], [2, 2, 2, 2]];
    assert_eq!(chosen_by(LOW), expected);
}

#[test]
fn else_their_common_value_when_both_are_0_or_both_are_1_else_x() {
    let expected = [[0, 2, 2, 2], [2, 1, 2, 2], [2, 2, 2, 2], [2, 2, 2, 2]];
    assert_eq!(chosen_by(UNKNOWN), expected);
    assert_eq!(chosen_by(NONE), expected);
}

#[test]
fn a_chosen_z_becomes_x() {
    assert_eq!(rule(MULTIPLEXER, 0, &[LOW, NONE, HIGH]), UNKNOWN);
    assert_eq!(rule(MULTIPLEXER, 0, &[NONE, LOW, LOW]), UNKNOWN);
    for third in [UNKNOWN, NONE] {
        assert_eq!(rule(MULTIPLEXER, 0, &[NONE, NONE, third]), UNKNOWN);
    }
}
