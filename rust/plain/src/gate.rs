//! The rules of the kinds: in document 01's words, for the clocked inverter in document 02's, W-202,
//! and for three inputs in W-205's.

use crate::level::{HIGH, LOW, NONE, UNKNOWN};

/// The rule of a kind over the cells of its used inputs at one tick. A memory has no such rule: it
/// looks at the past.
pub fn rule(kind: u8, parameter: u8, inputs: &[u8]) -> u8 {
    match (kind, inputs) {
        (0, []) => parameter,
        (1, &[a]) => seen(a),
        (2, &[a]) => inverter(a),
        (3, [_, _]) | (10, [_, _, _]) => and(inputs),
        (4, [_, _]) | (11, [_, _, _]) => or(inputs),
        (5, [_, _]) | (12, [_, _, _]) => xor(inputs),
        (6, [_, _]) | (13, [_, _, _]) => inverter(and(inputs)),
        (7, [_, _]) | (14, [_, _, _]) => inverter(or(inputs)),
        (8, &[a, clock]) => clocked_inverter(a, clock),
        (15, &[first, second, third]) => multiplexer(first, second, third),
        _ => panic!("kind {kind} has no rule over {inputs:?} at one tick"),
    }
}

/// Whether `value` is in the set that a memory's parameter stands for.
pub fn in_set(parameter: u8, value: u8) -> bool {
    parameter & (1 << value) != 0
}

/// An input of no value counts as undefined.
fn seen(value: u8) -> u8 {
    if value == NONE {
        UNKNOWN
    } else {
        value
    }
}

fn inverter(a: u8) -> u8 {
    match seen(a) {
        LOW => HIGH,
        HIGH => LOW,
        _ => UNKNOWN,
    }
}

fn and(inputs: &[u8]) -> u8 {
    if inputs.contains(&LOW) {
        LOW
    } else if inputs.iter().all(|&value| value == HIGH) {
        HIGH
    } else {
        UNKNOWN
    }
}

fn or(inputs: &[u8]) -> u8 {
    if inputs.contains(&HIGH) {
        HIGH
    } else if inputs.iter().all(|&value| value == LOW) {
        LOW
    } else {
        UNKNOWN
    }
}

/// Of two inputs an odd count of ones says that they differ.
fn xor(inputs: &[u8]) -> u8 {
    let ones = inputs.iter().filter(|&&value| value == HIGH).count();
    if inputs.iter().any(|&value| seen(value) == UNKNOWN) {
        UNKNOWN
    } else if ones % 2 == 1 {
        HIGH
    } else {
        LOW
    }
}

fn clocked_inverter(a: u8, clock: u8) -> u8 {
    match clock {
        HIGH => inverter(a),
        LOW => NONE,
        _ => UNKNOWN,
    }
}

/// The third input chooses. Where it does not tell, both must say the same.
fn multiplexer(first: u8, second: u8, third: u8) -> u8 {
    match (third, [first, second]) {
        (HIGH, _) => seen(second),
        (LOW, _) => seen(first),
        (_, [LOW, LOW]) => LOW,
        (_, [HIGH, HIGH]) => HIGH,
        _ => UNKNOWN,
    }
}
