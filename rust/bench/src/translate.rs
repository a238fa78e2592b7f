//! A sheet as Verilog and as VHDL, with delays that pass every pulse. The drivers of a node are joined by
//! the languages' own resolution. What both say of a sheet stands here.

pub mod verilog;
pub mod vhdl;

use plain::{Event, Sheet, UNKNOWN};

/// The value that a node begins with: a driven node's own byte, an input's event at tick 0, and X
/// without one.
fn first_value(sheet: &Sheet, node: u8) -> u8 {
    match sheet.is_driven(node) {
        true => sheet.nodes[usize::from(node)],
        false => {
            let mut own = sheet.drive.iter().filter(|event| event.node == node);
            let first = own.next().filter(|event| event.tick == 0);
            first.map_or(UNKNOWN, |event| event.value)
        }
    }
}

/// The events of a node after tick 0.
fn later_events(sheet: &Sheet, node: u8) -> Vec<Event> {
    let later = |event: &&Event| event.node == node && event.tick > 0;
    sheet.drive.iter().filter(later).copied().collect()
}

/// Whether the node has several drivers.
fn is_shared(sheet: &Sheet, node: u8) -> bool {
    sheet.drivers(node).count() > 1
}

/// A name for a node that both languages take.
fn name(node: u8) -> String {
    format!("n{node}")
}

/// What a text says for each value in the set that a memory's parameter stands for.
fn members(set: u8, says: impl Fn(u8) -> String) -> Vec<String> {
    let levels = 0..4;
    levels
        .filter(|&level| plain::in_set(set, level))
        .map(says)
        .collect()
}
