//! The sheets that are timed. Few nodes are watched, so that the listings stay short.

use crate::buses::buses;
use generate::sheets::*;
use generate::{Generator, Start};
use plain::{Edition, Sheet, HIGH, INPUT, LOW};

pub struct Workload {
    pub name: &'static str,
    pub edition: Edition,
    pub sheet: Sheet,
}

pub fn all() -> Vec<Workload> {
    let of = |edition, name, sheet| Workload {
        name,
        edition,
        sheet,
    };
    let first = |name, sheet| of(Edition::First, name, sheet);
    vec![
        first("ring of 253, all toggling", toggling_ring(253)),
        first("ring of 255, one change", travelling_ring(255)),
        first("255 random gates", random_gates(Edition::First, 10)),
        first("zero-delay chain of 128", zero_delay_chain(128)),
        first("sparse, long delays", sparse()),
        of(
            Edition::Second,
            "255 gates of three inputs",
            random_gates(Edition::Second, 24),
        ),
        first("8 buses of 16 drivers", buses()),
    ]
}

/// Inverters of delay 1, each reading the one before it and the first the last.
fn ring(initial: &[u8]) -> Sheet {
    let nodes = initial.len() as u8;
    let before = |node: u8| if node == 0 { nodes - 1 } else { node - 1 };
    let inverter = |node: u8| gate(INVERTER, [before(node), 0], node, 1);
    let modules: Vec<_> = (0..nodes).map(inverter).collect();
    sheet(initial, &modules, &[], &[0])
}

/// All are low at first, so all change at every tick.
fn toggling_ring(nodes: usize) -> Sheet {
    ring(&vec![LOW; nodes])
}

/// Low and high in turn. With an odd number of nodes only the first is not what its inverter
/// gives, and its change goes round.
fn travelling_ring(nodes: usize) -> Sheet {
    let initial: Vec<u8> = [LOW, HIGH].into_iter().cycle().take(nodes).collect();
    ring(&initial)
}

/// Gates with delays of 1 to 100, from a seed with which they stay lively and never have more
/// than 4,096 changes pending.
fn random_gates(edition: Edition, seed: u64) -> Sheet {
    let mut sheet = Generator::of(edition, seed).gates(255, 100, Start::AtOnce);
    sheet.watched = vec![0, 100];
    sheet
}

/// Inverters without delay in a row after an oscillator that changes every 7 ticks.
fn zero_delay_chain(length: u8) -> Sheet {
    let mut modules = vec![gate(INVERTER, [0, 0], 0, 7)];
    modules.extend((1..=length).map(|node| gate(INVERTER, [node - 1, 0], node, 0)));
    sheet(&vec![LOW; modules.len()], &modules, &[], &[0, length])
}

/// An input that changes every 20,000 ticks, and buffers in a row with long delays.
fn sparse() -> Sheet {
    let length = 32;
    let buffer = |node: u8| {
        let delay = 10_000 - 100 * u16::from(node);
        gate(BUFFER, [node - 1, 0], node, delay)
    };
    let modules: Vec<_> = (1..=length).map(buffer).collect();
    let level = |place: u32| if place.is_multiple_of(2) { LOW } else { HIGH };
    let drive: Vec<Change> = (0..50)
        .map(|place| (20_000 * place, 0, level(place)))
        .collect();
    let mut nodes = vec![LOW; modules.len()];
    nodes.insert(0, INPUT);
    sheet(&nodes, &modules, &drive, &[0, length / 2, length])
}
