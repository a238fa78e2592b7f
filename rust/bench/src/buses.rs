//! The workload of nodes with several drivers: buses of clocked inverters, and what reads them.

use generate::sheets::*;
use plain::{Module, Sheet, HIGH, LOW, NONE};

/// The buses are the first nodes. Half of them have drivers without delay, the others drivers with delays of 1
/// to 5.
const BUSES: u8 = 8;

/// The clocks, a ring of buffers in which one high goes round: the driver of each bus at the same place has it.
const CLOCKS: u8 = 16;
const FIRST_CLOCK: u8 = BUSES;
/// How long a clock is high.
const TURN: u16 = 8;

/// Inverters onto their own inputs.
const OSCILLATORS: [u16; 8] = [3, 4, 5, 7, 9, 11, 13, 17];
const FIRST_OSCILLATOR: u8 = FIRST_CLOCK + CLOCKS;

/// Gates of a bus and an oscillator, which the drivers read. With half of the oscillator's values they pass
/// on what the bus does not say, and so no X stays.
const READERS: u8 = 64;
const FIRST_READER: u8 = FIRST_OSCILLATOR + OSCILLATORS.len() as u8;
const READER_KINDS: [u8; 4] = [NAND, NOR, AND, OR];

/// One bus of each sort is watched.
pub fn buses() -> Sheet {
    let mut modules = Vec::new();
    for bus in 0..BUSES {
        modules.extend((0..CLOCKS).map(|place| driver(bus, place)));
    }
    modules.extend((0..CLOCKS).map(clock));
    modules.extend((FIRST_OSCILLATOR..).zip(OSCILLATORS).map(oscillator));
    modules.extend((0..READERS).map(reader));
    let mut nodes = vec![LOW; usize::from(FIRST_READER + READERS)];
    nodes[..usize::from(BUSES)].fill(NONE);
    nodes[usize::from(FIRST_CLOCK)] = HIGH;
    sheet(&nodes, &modules, &[], &[0, BUSES / 2])
}

/// Where delays differ, a driver's turn begins before the last one's has ended, or after: it clashes, or the bus
/// is Z.
fn driver(bus: u8, place: u8) -> Module {
    let read = FIRST_READER + (11 * bus + 5 * place) % READERS;
    let delay = match bus < BUSES / 2 {
        true => 0,
        false => 1 + (bus + place) % 5,
    };
    gate(
        CLOCKED_INVERTER,
        [read, FIRST_CLOCK + place],
        bus,
        delay.into(),
    )
}

fn clock(place: u8) -> Module {
    let before = FIRST_CLOCK + (place + CLOCKS - 1) % CLOCKS;
    gate(BUFFER, [before], FIRST_CLOCK + place, TURN)
}

fn oscillator((node, delay): (u8, u16)) -> Module {
    gate(INVERTER, [node], node, delay)
}

fn reader(place: u8) -> Module {
    let kind = READER_KINDS[usize::from(place / BUSES % 4)];
    let oscillator = FIRST_OSCILLATOR + (place + place / 8) % 8;
    let inputs = [place % BUSES, oscillator];
    let delay = 1 + place % 7;
    gate(kind, inputs, FIRST_READER + place, delay.into())
}
