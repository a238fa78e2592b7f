//! The cells of every node and the contributions of every module, by document 01's equations and
//! document 02's W-209.

use crate::gate::{in_set, rule};
use crate::join::join;
use crate::level::{NONE, UNKNOWN};
use crate::sheet::{Event, Module, Sheet};

/// The kind that looks at the past.
const MEMORY: u8 = 9;

/// What there is at each of the ticks 0 to H - 1.
#[derive(Debug)]
pub struct Timelines {
    /// The cells of each node: `cells[node][tick]`.
    pub cells: Vec<Vec<u8>>,
    /// What each module contributes to its output: `contributions[module][tick]`, the modules being
    /// numbered as they are listed.
    pub contributions: Vec<Vec<u8>>,
}

/// The cells and contributions of a sheet, which must be one that is accepted.
pub fn timelines(sheet: &Sheet, horizon: u32) -> Timelines {
    let sources: Vec<Source> = sheet.node_numbers().map(|v| source(sheet, v)).collect();
    let mut settling = Settling {
        sheet,
        sources: &sources,
        settled: Timelines {
            cells: vec![Vec::new(); sheet.nodes.len()],
            contributions: vec![Vec::new(); sheet.modules.len()],
        },
    };
    for tick in 0..horizon as usize {
        for node in sheet.node_numbers() {
            settling.cell(node, tick);
        }
    }
    settling.settled
}

/// The cells alone.
pub fn cells(sheet: &Sheet, horizon: u32) -> Vec<Vec<u8>> {
    timelines(sheet, horizon).cells
}

/// What gives a node its cells.
enum Source<'a> {
    /// An input, with its own drive events in order.
    Drive(Vec<&'a Event>),
    /// The modules that drive the node.
    Drivers(Vec<usize>),
}

fn source(sheet: &Sheet, node: u8) -> Source<'_> {
    match sheet.is_driven(node) {
        true => Source::Drivers(sheet.drivers(node).collect()),
        false => Source::Drive(sheet.drive.iter().filter(|e| e.node == node).collect()),
    }
}

struct Settling<'a> {
    sheet: &'a Sheet,
    sources: &'a [Source<'a>],
    /// What is settled so far. A cell or contribution of a tick is settled once, by pushing it.
    settled: Timelines,
}

impl<'a> Settling<'a> {
    /// The node's cell, settled now if it is not yet. All cells of earlier ticks are settled, and
    /// a chain of zero-delay modules ends, so this does.
    fn cell(&mut self, node: u8, tick: usize) -> u8 {
        let place = usize::from(node);
        if let Some(&settled) = self.settled.cells[place].get(tick) {
            return settled;
        }
        let sources: &'a [Source] = self.sources;
        let value = match &sources[place] {
            Source::Drive(events) => latest(events, tick),
            Source::Drivers(modules) => self.joined(modules, tick),
        };
        debug_assert_eq!(self.settled.cells[place].len(), tick);
        self.settled.cells[place].push(value);
        value
    }

    /// What the modules' contributions come to once all are settled. Z is neutral.
    fn joined(&mut self, modules: &[usize], tick: usize) -> u8 {
        let mut value = NONE;
        for &module in modules {
            value = join(value, self.contribution(module, tick));
        }
        value
    }

    /// What the module contributes: its node's initial value until its own delay has passed. Its node
    /// asks for it once.
    fn contribution(&mut self, place: usize, tick: usize) -> u8 {
        let module = &self.sheet.modules[place];
        let initial = self.sheet.nodes[usize::from(module.output)];
        let value = self.given(module, tick).unwrap_or(initial);
        debug_assert_eq!(self.settled.contributions[place].len(), tick);
        self.settled.contributions[place].push(value);
        value
    }

    /// What the module's equation gives, or none where the initial value stands.
    fn given(&mut self, module: &Module, tick: usize) -> Option<u8> {
        let seen = tick.checked_sub(usize::from(module.delay))?;
        let values = self.used_cells(module, seen);
        if module.kind == MEMORY {
            self.caught(module, seen)
        } else {
            let used = &values[..module.input_count()];
            Some(rule(module.kind, module.parameter, used))
        }
    }

    /// The used inputs' cells come first. An unused input is not asked: its 0 names no node.
    fn used_cells(&mut self, module: &Module, tick: usize) -> [u8; 3] {
        let mut values = [UNKNOWN; 3];
        for (value, node) in values.iter_mut().zip(module.used_inputs()) {
            *value = self.cell(node, tick);
        }
        values
    }

    /// A memory's cell u of the first input, u being the greatest tick not above `seen` at which the
    /// second input's cell is in the set. Both inputs' cells are settled up to `seen`. The search goes
    /// all the way back where the set is never met: a quiet memory takes time in the square of
    /// the horizon.
    fn caught(&self, module: &Module, seen: usize) -> Option<u8> {
        let data = &self.settled.cells[usize::from(module.first)];
        let control = &self.settled.cells[usize::from(module.second)][..=seen];
        let caught = control
            .iter()
            .rposition(|&value| in_set(module.parameter, value))?;
        Some(data[caught])
    }
}

/// The value of the latest event with a tick of at most `tick`. An input is X until its first event.
fn latest(events: &[&Event], tick: usize) -> u8 {
    let begun = events.partition_point(|event| event.tick as usize <= tick);
    events[..begun].last().map_or(UNKNOWN, |event| event.value)
}
