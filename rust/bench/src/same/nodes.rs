//! The values of the nodes, and what their drivers contribute.

use plain::{Sheet, HIGH, INPUT, LOW, NONE, UNKNOWN};

use super::tables::{Bytes, Tables};

pub struct Nodes {
    /// The present value of each node.
    pub values: [u8; 256],
    /// The present contribution, by position, of each module whose node has other drivers, and of each
    /// module without delay: a memory's is what it holds.
    given: [u8; 256],
    /// How many modules contribute each value to a node that has several drivers: four words a node.
    counts: [u16; 4 * 256],
}

impl Nodes {
    /// What nodes and modules begin with: each module contributes its node's initial value.
    pub fn new(sheet: &Sheet, tables: &Tables) -> Nodes {
        let mut nodes = Nodes {
            values: [0; 256],
            given: [0; 256],
            counts: [0; 4 * 256],
        };
        for (value, &byte) in nodes.values.iter_mut().zip(&sheet.nodes) {
            *value = if byte == INPUT { UNKNOWN } else { byte };
        }
        for (given, output) in nodes.given.iter_mut().zip(tables.outputs()) {
            *given = nodes.values[usize::from(output)];
            nodes.counts[word(output, *given)] += 1;
        }
        nodes
    }

    /// From a position on each module contributes what it comes to over the values, holding what it
    /// contributed before. Whether any node has several drivers is told once.
    pub fn settle<'a>(
        &mut self,
        from: usize,
        shared: bool,
        modules: impl Iterator<Item = (&'a Bytes, u16)>,
        comes_to: impl Fn(&Bytes, u16, &[u8; 256], u8) -> u8,
    ) {
        for (position, (module, start)) in (from..).zip(modules) {
            let held = self.given[position];
            let value = comes_to(module, start, &self.values, held);
            let &[_, _, output, _, _, _, has_others, _] = module;
            if !shared || has_others == 0 {
                self.given[position] = value;
                self.values[usize::from(output)] = value;
            } else if held != value {
                self.join(position, output, value);
            }
        }
    }

    /// Takes the module's contribution off its node's counts and adds the new one; the node has what they say
    /// then. It is not inlined, so that nodes with one driver cost what they do without it.
    #[inline(never)]
    pub fn join(&mut self, position: usize, output: u8, value: u8) {
        self.counts[word(output, self.given[position])] -= 1;
        self.counts[word(output, value)] += 1;
        self.given[position] = value;
        self.values[usize::from(output)] = self.joined(output);
    }

    /// Z yields to the other, equal values stay, anything else is X.
    fn joined(&self, node: u8) -> u8 {
        let count = |value| self.counts[word(node, value)];
        match [LOW, HIGH, UNKNOWN].map(count) {
            [0, 0, 0] => NONE,
            [_, 0, 0] => LOW,
            [0, _, 0] => HIGH,
            _ => UNKNOWN,
        }
    }
}

fn word(node: u8, value: u8) -> usize {
    4 * usize::from(node) + usize::from(value)
}
