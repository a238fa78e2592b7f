//! Other sheets with the same inputs.

use plain::{Sheet, INPUT};

use crate::limits::MOST_NODES;
use crate::{byte, Generator};

impl Generator {
    /// A sheet that is accepted and has the inputs of this one, under the same numbers, and nothing else of
    /// it: there are more driven nodes or fewer, other modules, another drive and other watched nodes.
    pub fn with_same_inputs(&mut self, sheet: &Sheet) -> Sheet {
        let up_to_last = sheet
            .inputs()
            .last()
            .map_or(1, |last| usize::from(last) + 1);
        let nodes = up_to_last + self.random.between(0, 9);
        let nodes = nodes.min(MOST_NODES);
        let mut other = Sheet {
            nodes: (0..nodes).map(|_| self.level()).collect(),
            ..Sheet::default()
        };
        for input in sheet.inputs() {
            other.nodes[usize::from(input)] = INPUT;
        }
        for node in (0..nodes).filter(|&node| other.nodes[node] != INPUT) {
            let module = self.widest_gate(byte(node), nodes, 12);
            other.modules.push(module);
        }
        other.drive = self.events_of_inputs(&other);
        other.watched = other
            .node_numbers()
            .filter(|_| self.random.chance(50))
            .collect();
        // This sorts the drive, too.
        self.reordered(&other)
    }
}
