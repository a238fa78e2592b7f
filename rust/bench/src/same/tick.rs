//! One tick: the modules are worked, and then the tick's records are listed.

use generate::limits::RECORD_BYTES;
use plain::{Event, Sheet};

use super::changes::Changes;
use super::nodes::Nodes;
use super::tables::Tables;

/// No value: a node that has not been shown.
const NOT_SHOWN: u8 = 4;

/// A node that has no record yet.
const NO_RECORD: usize = 0;

type Record = [u8; RECORD_BYTES];

/// Where a record's end stands.
const END: usize = 6;

/// What a run keeps from tick to tick.
pub struct Tick<'a> {
    horizon: u32,
    tables: Tables,
    /// The events that are still to come.
    drive: &'a [Event],
    watched: &'a [u8],
    nodes: Nodes,
    /// What each delayed module came to last, by position.
    last: [u8; 256],
    /// The value of each watched node that was listed last.
    shown: [u8; 256],
    /// One more than the number of each node's last record.
    places: [usize; 256],
    changes: Changes,
}

impl<'a> Tick<'a> {
    pub fn new(sheet: &'a Sheet, horizon: u32) -> Tick<'a> {
        let tables = Tables::new(sheet);
        let nodes = Nodes::new(sheet, &tables);
        let mut last = [0; 256];
        for (last, output) in last.iter_mut().zip(tables.outputs()) {
            *last = nodes.values[usize::from(output)];
        }
        Tick {
            horizon,
            tables,
            drive: &sheet.drive,
            watched: &sheet.watched,
            nodes,
            last,
            shown: [NOT_SHOWN; 256],
            places: [NO_RECORD; 256],
            changes: Changes::new(),
        }
    }

    /// Works the modules. Answers how many changes are pending then.
    pub fn work(&mut self, tick: u32) -> usize {
        self.drive_all(tick);
        self.changes.apply_due(tick, &self.tables, &mut self.nodes);
        self.settle_all();
        self.schedule_all(tick);
        self.changes.count()
    }

    fn drive_all(&mut self, tick: u32) {
        while let [event, rest @ ..] = self.drive {
            if event.tick != tick {
                return;
            }
            self.nodes.values[usize::from(event.node)] = event.value;
            self.drive = rest;
        }
    }

    /// Works the modules of delay zero in their order.
    #[inline(never)]
    fn settle_all(&mut self) {
        let tables = &self.tables;
        let (from, modules) = tables.zero_delay();
        self.nodes.settle(
            from,
            tables.shared,
            modules,
            |module, start, values, held| tables.comes_to(module, start, values, held),
        );
    }

    /// Schedules what each delayed module comes to, if that differs from what it came to last.
    #[inline(never)]
    fn schedule_all(&mut self, tick: u32) {
        let delayed = self.tables.delayed().zip(&mut self.last).enumerate();
        for (position, ((module, start, delay), last)) in delayed {
            let values = &self.nodes.values;
            let value = self.tables.comes_to(module, start, values, *last);
            if value == *last {
                continue;
            }
            *last = value;
            let due = tick + u32::from(delay);
            if due < self.horizon {
                self.changes.add(due, position, value);
            }
        }
    }

    fn is_fresh(&self, node: u8) -> bool {
        self.nodes.values[usize::from(node)] != self.shown[usize::from(node)]
    }

    /// How many watched nodes have a value that is not the one shown last.
    pub fn count_fresh(&self) -> usize {
        let watched = self.watched.iter();
        watched.filter(|&&node| self.is_fresh(node)).count()
    }

    /// Writes a record for each of them, from place `written` on. The node's record before it ends
    /// here.
    pub fn write_fresh(&mut self, tick: u32, mut written: usize, records: &mut [Record]) {
        for &node in self.watched {
            if self.is_fresh(node) {
                self.end_last(node, tick, records);
                records[written] = self.record(tick, node);
                written += 1;
                self.places[usize::from(node)] = written;
            }
        }
    }

    /// The record of a node's value, whose end is not known yet.
    fn record(&self, tick: u32, node: u8) -> Record {
        let [t0, t1, t2, t3] = tick.to_le_bytes();
        let value = self.nodes.values[usize::from(node)];
        [t0, t1, t2, t3, node, value, 0, 0, 0, 0]
    }

    /// The node's last record, if it has one, ends at this tick.
    fn end_last(&self, node: u8, tick: u32, records: &mut [Record]) {
        let number = self.places[usize::from(node)];
        if number != NO_RECORD {
            records[number - 1][END..].copy_from_slice(&tick.to_le_bytes());
        }
    }

    /// The values that still last end at this tick.
    pub fn end_all(&self, tick: u32, records: &mut [Record]) {
        for &node in self.watched {
            self.end_last(node, tick, records);
        }
    }

    /// The values of the watched nodes are now shown.
    pub fn show_all(&mut self) {
        for &node in self.watched {
            self.shown[usize::from(node)] = self.nodes.values[usize::from(node)];
        }
    }
}
