//! The pending changes: one flat list, looked through at every tick.

use generate::limits::{MOST_MODULES, MOST_PENDING};

use super::nodes::Nodes;
use super::tables::Tables;

/// A change is 1,024 times its due tick, 4 times the module's position and the value.
pub struct Changes {
    pending: Vec<u32>,
    /// Those due for nodes with several drivers, which are joined after the pass: the pass itself stays what
    /// it is with one driver a node.
    to_join: [u32; MOST_MODULES],
}

impl Changes {
    /// A tick adds at most one for each module, so the list is never moved.
    pub fn new() -> Changes {
        Changes {
            pending: Vec::with_capacity(MOST_PENDING + MOST_MODULES),
            to_join: [0; MOST_MODULES],
        }
    }

    pub fn count(&self) -> usize {
        self.pending.len()
    }

    pub fn add(&mut self, due: u32, position: usize, value: u8) {
        self.pending
            .push(due * 1_024 + position as u32 * 4 + u32::from(value));
    }

    /// Gives the changes due to their nodes, and keeps the others.
    #[inline(never)]
    pub fn apply_due(&mut self, tick: u32, tables: &Tables, nodes: &mut Nodes) {
        let mut count = 0;
        self.pending.retain(|&change| {
            let is_due = change / 1_024 == tick;
            if is_due {
                let (position, value) = parts(change);
                let output = tables.output(position);
                if tables.has_others(position) {
                    self.to_join[count] = change;
                    count += 1;
                } else {
                    nodes.values[usize::from(output)] = value;
                }
            }
            !is_due
        });
        for &change in &self.to_join[..count] {
            let (position, value) = parts(change);
            nodes.join(position, tables.output(position), value);
        }
    }
}

/// A change's position and value.
fn parts(change: u32) -> (usize, u8) {
    ((change / 4 % 256) as usize, (change % 4) as u8)
}
