//! Sheets that tests of more than one crate run.

use plain::{Module, Sheet, INPUT, LOW, NONE, UNKNOWN};

use crate::sheets::*;

/// An input that changes at each of its 1,024 events, and modules that read it.
pub fn toggled(modules: &[Module]) -> Sheet {
    let mut nodes = vec![LOW; modules.len()];
    nodes.insert(0, INPUT);
    let value = |tick: u32| u8::from(tick.is_multiple_of(2));
    let drive: Vec<_> = (0..1_024).map(|tick| (tick, 0, value(tick))).collect();
    sheet(&nodes, modules, &drive, &[0])
}

/// Four buffers whose 1,024 changes each are all pending after tick 1,023.
pub fn four_buffers() -> Vec<Module> {
    let outputs = 1..=4;
    outputs
        .map(|output| gate(BUFFER, [0, 0], output, 5_000))
        .collect()
}

/// A memory of delay zero whose control is the XOR of an input and its buffer: always low, but
/// high inside tick 4 to whoever looks before the buffer has settled.
pub fn memory_after_gates(watched: &[u8]) -> Sheet {
    let modules = [
        memory(0b0010, [0, 2], 3, 0),
        gate(XOR, [0, 1], 2, 0),
        gate(BUFFER, [0, 0], 1, 0),
    ];
    let drive = [(0, 0, 0), (4, 0, 1), (8, 0, 0)];
    sheet(&[INPUT, LOW, LOW, UNKNOWN], &modules, &drive, watched)
}

/// Document 02, W-203: node 0 is an input that never begins, node 1 one that begins at tick 3, node 2
/// one that begins at once. A memory whose set is X alone catches node 2 into node 3, a tick later,
/// as long as node 1 is not known; node 4 is the NAND of nodes 0 and 2.
pub fn unknown_at_first() -> Sheet {
    let modules = [memory(0b0100, [2, 1], 3, 1), gate(NAND, [0, 2], 4, 0)];
    let drive = [(0, 2, 0), (2, 2, 1), (3, 1, 1), (4, 2, 0)];
    let nodes = [INPUT, INPUT, INPUT, NONE, UNKNOWN];
    sheet(&nodes, &modules, &drive, &[0, 1, 2, 3, 4])
}

/// What a run of [`unknown_at_first`] to horizon 6 lists.
pub const UNKNOWN_AT_FIRST: [Record; 12] = [
    (0, 0, 2, 6),
    (0, 1, 2, 3),
    (0, 2, 0, 2),
    (0, 3, 3, 1),
    (0, 4, 1, 2),
    (1, 3, 0, 3),
    (2, 2, 1, 4),
    (2, 4, 2, 4),
    (3, 1, 1, 6),
    (3, 3, 1, 6),
    (4, 2, 0, 6),
    (4, 4, 1, 6),
];
