//! Short ways to write sheets and records down.

use plain::{Event, Module, Sheet};

use crate::limits::{PULSE_BYTES, RECORD_BYTES};

pub const CONSTANT: u8 = 0;
pub const BUFFER: u8 = 1;
pub const INVERTER: u8 = 2;
pub const AND: u8 = 3;
pub const OR: u8 = 4;
pub const XOR: u8 = 5;
pub const NAND: u8 = 6;
pub const NOR: u8 = 7;
pub const CLOCKED_INVERTER: u8 = 8;
pub const MEMORY: u8 = 9;
pub const AND_3: u8 = 10;
pub const OR_3: u8 = 11;
pub const XOR_3: u8 = 12;
pub const NAND_3: u8 = 13;
pub const NOR_3: u8 = 14;
pub const MULTIPLEXER: u8 = 15;

/// A memory's set of all values.
pub const ANY_VALUE: u8 = 15;

/// Tick, node and value: an event of a drive, or a change.
pub type Change = (u32, u8, u8);

/// Tick, node, value and end: a record of a listing.
pub type Record = (u32, u8, u8, u32);

/// Start tick, node and length: a record of a report of pulses.
pub type Pulse = (u32, u8, u32);

/// A gate from its inputs to its output. An input that the kind lacks is 0, and so is one that is not
/// given.
pub fn gate<const N: usize>(kind: u8, inputs: [u8; N], output: u8, delay: u16) -> Module {
    let input = |place: usize| inputs.get(place).copied().unwrap_or(0);
    Module {
        kind,
        parameter: 0,
        output,
        first: input(0),
        second: input(1),
        third: input(2),
        delay,
    }
}

pub fn constant(value: u8, output: u8, delay: u16) -> Module {
    Module {
        parameter: value,
        ..gate(CONSTANT, [0, 0], output, delay)
    }
}

pub fn memory(set: u8, inputs: [u8; 2], output: u8, delay: u16) -> Module {
    Module {
        parameter: set,
        ..gate(MEMORY, inputs, output, delay)
    }
}

pub fn event(tick: u32, node: u8, value: u8) -> Event {
    Event { tick, node, value }
}

pub fn sheet(nodes: &[u8], modules: &[Module], drive: &[Change], watched: &[u8]) -> Sheet {
    let event = |&(tick, node, value): &Change| event(tick, node, value);
    Sheet {
        nodes: nodes.to_vec(),
        modules: modules.to_vec(),
        drive: drive.iter().map(event).collect(),
        watched: watched.to_vec(),
    }
}

/// The records of a listing's bytes.
pub fn records(listing: &[u8]) -> Vec<Record> {
    let (records, rest) = listing.as_chunks();
    assert!(rest.is_empty(), "a listing is made of whole records");
    let record = |&[t0, t1, t2, t3, node, value, e0, e1, e2, e3]: &[u8; RECORD_BYTES]| {
        let [tick, end] = [[t0, t1, t2, t3], [e0, e1, e2, e3]].map(u32::from_le_bytes);
        (tick, node, value, end)
    };
    records.iter().map(record).collect()
}

/// The pulses of a report's bytes.
pub fn pulses(report: &[u8]) -> Vec<Pulse> {
    let (pulses, rest) = report.as_chunks();
    assert!(rest.is_empty(), "a report is made of whole pulses");
    let pulse = |&[s0, s1, s2, s3, node, l0, l1, l2, l3]: &[u8; PULSE_BYTES]| {
        let [start, length] = [[s0, s1, s2, s3], [l0, l1, l2, l3]].map(u32::from_le_bytes);
        (start, node, length)
    };
    pulses.iter().map(pulse).collect()
}
