//! Networks of delayed gates with as many inputs as the edition has.

use plain::{Module, Sheet, HIGH, INPUT, LOW};

use crate::sheets::{event, gate};
use crate::{byte, Generator, Start};

impl Generator {
    /// So many gates, each with a delay from 1 on and with any nodes as its inputs, and an input
    /// that stays low once it has begun. Nothing is watched.
    pub fn gates(&mut self, gates: usize, longest_delay: usize, start: Start) -> Sheet {
        let nodes = gates + 1;
        let input = byte(gates);
        let initial = (0..gates).map(|_| self.random.pick(&[LOW, HIGH]));
        let mut bytes: Vec<u8> = initial.collect();
        bytes.push(INPUT);
        let modules = (0..input).map(|node| self.widest_gate(node, nodes, longest_delay));
        let modules = modules.collect();
        let first = self.first_tick(start);
        Sheet {
            nodes: bytes,
            modules,
            drive: first
                .map(|tick| event(tick, input, LOW))
                .into_iter()
                .collect(),
            watched: Vec::new(),
        }
    }

    /// A gate of two inputs, in the second edition of three, over any of the nodes.
    pub(crate) fn widest_gate(&mut self, output: u8, nodes: usize, longest_delay: usize) -> Module {
        let kind = self.widest_kind();
        let mut module = gate(kind, [], output, 0);
        for input in module.used_inputs_mut() {
            *input = byte(self.random.place(nodes));
        }
        let delay = self.random.between(1, longest_delay);
        module.delay = u16::try_from(delay).expect("the delay has two bytes");
        module
    }
}
