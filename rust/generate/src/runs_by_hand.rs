//! Document 02's W-205: runs of the second edition whose records are worked out by hand.

use plain::{Module, Sheet, HIGH, INPUT, LOW, NONE, UNKNOWN};

use crate::drivers_by_hand;
use crate::sheets::*;

/// A run that finishes, and the records that it leaves.
pub struct Case {
    pub name: &'static str,
    pub sheet: Sheet,
    pub horizon: u32,
    pub records: Vec<Record>,
}

pub fn cases() -> Vec<Case> {
    vec![
        every_choice(),
        never_chosen(),
        odd_counts(),
        two_changes_in_a_tick(),
        three_delays(),
        ring_by_the_third_input(),
        chain_by_the_third_input(),
        drivers_by_hand::of_three_inputs(),
    ]
}

/// Inputs 0, 1 and 2 and the modules after them, which are watched.
fn over_three_inputs(initial: &[u8], modules: &[Module], drive: &[Change]) -> Sheet {
    let nodes = [&[INPUT; 3], initial].concat();
    let watched: Vec<u8> = (3..).take(initial.len()).collect();
    sheet(&nodes, modules, drive, &watched)
}

/// A multiplexer of delay 2. It takes the first input, then the second, neither while they differ, both
/// while they are 1, and last a first input of no value.
pub fn every_choice() -> Case {
    let drive = [
        (0, 0, LOW),
        (0, 1, HIGH),
        (0, 2, LOW),
        (3, 2, HIGH),
        (5, 2, UNKNOWN),
        (7, 0, HIGH),
        (9, 2, NONE),
        (10, 0, NONE),
        (10, 2, LOW),
        (12, 2, HIGH),
    ];
    let modules = [gate(MULTIPLEXER, [0, 1, 2], 3, 2)];
    Case {
        name: "every choice of a multiplexer",
        sheet: over_three_inputs(&[NONE], &modules, &drive),
        horizon: 16,
        records: vec![
            (0, 3, 3, 2),
            (2, 3, 0, 5),
            (5, 3, 1, 7),
            (7, 3, 2, 9),
            (9, 3, 1, 12),
            (12, 3, 2, 14),
            (14, 3, 1, 16),
        ],
    }
}

/// The third input never begins: the others must say the same. Two values of Z do not.
fn never_chosen() -> Case {
    let drive = [
        (0, 0, HIGH),
        (0, 1, HIGH),
        (3, 1, LOW),
        (5, 0, LOW),
        (7, 0, NONE),
        (7, 1, NONE),
    ];
    let modules = [gate(MULTIPLEXER, [0, 1, 2], 3, 0)];
    Case {
        name: "a multiplexer whose third input is not known",
        sheet: over_three_inputs(&[LOW], &modules, &drive),
        horizon: 9,
        records: vec![(0, 3, 1, 3), (3, 3, 2, 5), (5, 3, 0, 7), (7, 3, 2, 9)],
    }
}

/// None, one, two and three ones, then a value that is not known.
fn odd_counts() -> Case {
    let drive = [
        (0, 0, LOW),
        (0, 1, LOW),
        (0, 2, LOW),
        (1, 0, HIGH),
        (2, 1, HIGH),
        (3, 2, HIGH),
        (4, 2, UNKNOWN),
        (5, 2, NONE),
        (6, 2, LOW),
        (7, 0, LOW),
    ];
    let modules = [gate(XOR_3, [0, 1, 2], 3, 0)];
    Case {
        name: "XOR of three",
        sheet: over_three_inputs(&[LOW], &modules, &drive),
        horizon: 9,
        records: vec![
            (0, 3, 0, 1),
            (1, 3, 1, 2),
            (2, 3, 0, 3),
            (3, 3, 1, 4),
            (4, 3, 2, 6),
            (6, 3, 0, 7),
            (7, 3, 1, 9),
        ],
    }
}

/// Two inputs rise at tick 4: either change alone would give a pulse.
fn two_changes_in_a_tick() -> Case {
    let drive = [
        (0, 0, LOW),
        (0, 1, HIGH),
        (0, 2, LOW),
        (4, 0, HIGH),
        (4, 2, HIGH),
    ];
    let modules = [gate(XOR_3, [0, 1, 2], 3, 2)];
    Case {
        name: "two changes in a tick",
        sheet: over_three_inputs(&[HIGH], &modules, &drive),
        horizon: 10,
        records: vec![(0, 3, 1, 10)],
    }
}

/// AND at once, OR a tick later and NOR two ticks later, over 1 Z 1, then 0 Z 1, 0 Z 0 and 0 0 0.
fn three_delays() -> Case {
    let drive = [
        (0, 0, HIGH),
        (0, 1, NONE),
        (0, 2, HIGH),
        (2, 0, LOW),
        (4, 2, LOW),
        (6, 1, LOW),
    ];
    let modules = [
        gate(AND_3, [0, 1, 2], 3, 0),
        gate(OR_3, [0, 1, 2], 4, 1),
        gate(NOR_3, [0, 1, 2], 5, 2),
    ];
    Case {
        name: "AND, OR and NOR of three",
        sheet: over_three_inputs(&[LOW, UNKNOWN, HIGH], &modules, &drive),
        horizon: 10,
        records: vec![
            (0, 3, 2, 2),
            (0, 4, 2, 1),
            (0, 5, 1, 2),
            (1, 4, 1, 5),
            (2, 3, 0, 10),
            (2, 5, 0, 6),
            (5, 4, 2, 7),
            (6, 5, 2, 8),
            (7, 4, 0, 10),
            (8, 5, 1, 10),
        ],
    }
}

/// A NAND that reads its own output at the third input, until the first goes low at tick 3.
fn ring_by_the_third_input() -> Case {
    let drive = [(0, 0, HIGH), (0, 1, HIGH), (3, 0, LOW)];
    let modules = [gate(NAND_3, [0, 1, 2], 2, 1)];
    Case {
        name: "a ring by the third input",
        sheet: sheet(&[INPUT, INPUT, LOW], &modules, &drive, &[2]),
        horizon: 8,
        records: vec![(0, 2, 0, 1), (1, 2, 1, 2), (2, 2, 0, 3), (3, 2, 1, 8)],
    }
}

/// A multiplexer without delay, listed before the inverter that its third input reads.
fn chain_by_the_third_input() -> Case {
    let drive = [(0, 0, LOW), (0, 1, HIGH), (0, 2, LOW), (2, 2, HIGH)];
    let modules = [
        gate(MULTIPLEXER, [0, 1, 4], 3, 0),
        gate(INVERTER, [2], 4, 0),
    ];
    Case {
        name: "a chain by the third input",
        sheet: over_three_inputs(&[UNKNOWN, UNKNOWN], &modules, &drive),
        horizon: 5,
        records: vec![(0, 3, 1, 2), (0, 4, 1, 2), (2, 3, 0, 5), (2, 4, 0, 5)],
    }
}
