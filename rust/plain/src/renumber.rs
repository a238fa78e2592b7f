//! Renumbering a sheet and a listing.

use crate::record::Record;
use crate::sheet::{Event, Module, Sheet};

/// The sheet with its nodes renumbered, its modules listed in another order, and its drive and
/// watched nodes sorted again. `to[v]` is the new number of node v; the module at place i of the
/// result is the one at place `order[i]` of the sheet.
pub fn renumbered(sheet: &Sheet, to: &[u8], order: &[usize]) -> Sheet {
    let mut nodes = sheet.nodes.clone();
    for (&byte, &new) in sheet.nodes.iter().zip(to) {
        nodes[usize::from(new)] = byte;
    }
    let modules = order.iter().map(|&i| module(&sheet.modules[i], to));
    let mut watched: Vec<u8> = sheet.watched.iter().map(|&node| number(node, to)).collect();
    watched.sort_unstable();
    Sheet {
        nodes,
        modules: modules.collect(),
        drive: drive(&sheet.drive, to),
        watched,
    }
}

/// The listing with only its node numbers changed, sorted by tick, then by node. The ends go along.
pub fn renumbered_listing(listing: &[u8], to: &[u8]) -> Vec<u8> {
    let (records, rest) = listing.as_chunks();
    assert!(rest.is_empty(), "a listing is made of whole records");
    let record = |&bytes: &[u8; Record::BYTES]| {
        let record = Record::from_bytes(bytes);
        Record {
            node: number(record.node, to),
            ..record
        }
    };
    let mut records: Vec<Record> = records.iter().map(record).collect();
    records.sort_unstable_by_key(Record::key);
    records.into_iter().flat_map(Record::to_bytes).collect()
}

fn number(node: u8, to: &[u8]) -> u8 {
    to[usize::from(node)]
}

fn module(module: &Module, to: &[u8]) -> Module {
    let mut module = Module {
        output: number(module.output, to),
        ..*module
    };
    for input in module.used_inputs_mut() {
        *input = number(*input, to);
    }
    module
}

fn drive(events: &[Event], to: &[u8]) -> Vec<Event> {
    let event = |event: &Event| Event {
        node: number(event.node, to),
        ..*event
    };
    let mut events: Vec<Event> = events.iter().map(event).collect();
    events.sort_unstable_by_key(Event::key);
    events
}
