//! Zero-delay networks whose loops are known from how they were made.

use plain::{renumbered, Edition, Event, Module, Sheet, INPUT};

use crate::sheets::{gate, BUFFER, INVERTER, MEMORY};
use crate::{byte, Generator};

/// A sheet that is good but for its zero-delay loops, if it has any.
pub struct ZeroDelay {
    pub sheet: Sheet,
    /// The nodes on its loops.
    pub on_loops: Vec<u8>,
}

/// A network as it grows. Every part reads only nodes of the parts before it and its own, but for
/// the delayed modules, which read anything at the end.
#[derive(Default)]
struct Network {
    nodes: Vec<u8>,
    modules: Vec<Module>,
    on_loops: Vec<u8>,
}

impl Network {
    fn add_node(&mut self, byte_of_node: u8) -> u8 {
        self.nodes.push(byte_of_node);
        byte(self.nodes.len() - 1)
    }
}

impl Generator {
    /// Rings of zero-delay modules with modules before, between and after them, and decoys:
    /// circles that a delay interrupts. Now and then the network is large, up to 215 nodes.
    pub fn zero_delay(&mut self) -> ZeroDelay {
        let rings = self.random.pick(&[0, 0, 1, 1, 2, 3]);
        let longest = if self.random.chance(5) { 30 } else { 4 };
        let mut network = self.sources();
        for _ in 0..rings {
            self.add_gates(&mut network, longest);
            self.add_ring(&mut network, longest);
        }
        self.add_gates(&mut network, longest);
        self.read_anything(&mut network);
        self.finish(network)
    }

    /// No loop, but one seems to be there for whoever takes an unused input's 0 for node 0: the
    /// last module of a zero-delay chain drives node 0.
    pub fn closed_by_unused_inputs(&mut self) -> ZeroDelay {
        let mut network = self.sources();
        for _ in 0..self.random.between(1, 5) {
            let before = byte(network.nodes.len() - 1);
            let kind = self.kind_with_unused_inputs();
            self.add_gate(&mut network, kind, before);
        }
        let last = network.nodes.len() - 1;
        let mut to: Vec<u8> = (0..network.nodes.len()).map(byte).collect();
        to.swap(0, last);
        self.renumber(network, &to)
    }

    /// A kind that lacks an input of the edition's record.
    fn kind_with_unused_inputs(&mut self) -> u8 {
        let greatest = self.by_edition(INVERTER, MEMORY);
        byte(self.random.between(0, greatest.into()))
    }

    /// Zero-delay modules that read any nodes at all.
    pub fn tangle(&mut self) -> Sheet {
        let mut network = Network::default();
        let nodes = self.random.between(2, 12);
        let inputs = self.random.between(1, nodes - 1);
        for _ in 0..inputs {
            network.add_node(INPUT);
        }
        for _ in inputs..nodes {
            let kind = self.kind_from(0);
            self.add_gate(&mut network, kind, 0);
        }
        for module in &mut network.modules {
            module.delay = self.random.pick(&[0, 0, 0, 0, 1]);
            self.read_any_of(module, nodes);
        }
        self.finish(network).sheet
    }

    /// Inputs and delayed modules: nodes that no zero-delay module drives. What the delayed ones
    /// read is settled at the end.
    fn sources(&mut self) -> Network {
        let mut network = Network::default();
        for _ in 0..self.random.between(1, 3) {
            network.add_node(INPUT);
        }
        for _ in 0..self.random.between(0, 2) {
            let kind = self.kind_from(0);
            self.add_gate(&mut network, kind, 0);
        }
        for module in &mut network.modules {
            module.delay = self.random.pick(&[1, 2, 10_000]);
        }
        network
    }

    /// A few zero-delay modules that read what stands before them.
    fn add_gates(&mut self, network: &mut Network, most: usize) {
        for _ in 0..self.random.between(0, most) {
            let kind = self.kind_from(0);
            let before = byte(self.random.place(network.nodes.len()));
            self.add_gate(network, kind, before);
        }
    }

    /// A zero-delay module that reads `before` at one used input, and some nodes before itself at
    /// the others.
    fn add_gate(&mut self, network: &mut Network, kind: u8, before: u8) -> u8 {
        let others = self.others(network.nodes.len());
        let parameter = self.parameter(kind);
        let output = network.add_node(self.level());
        let mut module = Module {
            parameter,
            ..gate(kind, [], output, 0)
        };
        self.read(&mut module, before, others);
        network.modules.push(module);
        module.output
    }

    /// Two of so many nodes, to be read besides one. In the first edition no module reads the second.
    fn others(&mut self, nodes: usize) -> [u8; 2] {
        let other = byte(self.random.place(nodes));
        let another = match self.edition {
            Edition::First => other,
            Edition::Second => byte(self.random.place(nodes)),
        };
        [other, another]
    }

    /// Sets the used inputs to these nodes, in any order. A module of one input reads `one`.
    fn read(&mut self, module: &mut Module, one: u8, [other, another]: [u8; 2]) {
        let swapped = self.random.chance(50);
        match (module.input_count(), swapped) {
            (0, _) => {}
            (1, _) => module.first = one,
            (2, false) => (module.first, module.second) = (one, other),
            (2, true) => (module.first, module.second) = (other, one),
            _ => {
                let mut nodes = [one, other, another];
                self.random.shuffle(&mut nodes);
                [module.first, module.second, module.third] = nodes;
            }
        }
    }

    fn read_any_of(&mut self, module: &mut Module, nodes: usize) {
        let one = byte(self.random.place(nodes));
        let others = self.others(nodes);
        self.read(module, one, others);
    }

    /// A closed chain of zero-delay modules, one of them perhaps on its own.
    fn add_ring(&mut self, network: &mut Network, most: usize) {
        let start = network.nodes.len();
        for _ in 0..self.random.between(1, most) {
            let before = byte(network.nodes.len() - 1);
            let kind = self.kind_from(BUFFER);
            let output = self.add_gate(network, kind, before);
            network.on_loops.push(output);
        }
        // The first module reads the last one's output instead of what stood before the ring.
        let last = byte(network.nodes.len() - 1);
        let others = self.others(start);
        let module = network
            .modules
            .iter_mut()
            .find(|module| usize::from(module.output) == start)
            .expect("the ring has a first module");
        self.read(module, last, others);
    }

    /// Lets the delayed modules read any nodes, later ones and their own output too.
    fn read_anything(&mut self, network: &mut Network) {
        let nodes = network.nodes.len();
        for module in &mut network.modules {
            if module.delay > 0 {
                self.read_any_of(module, nodes);
            }
        }
    }

    /// The network as a sheet, its nodes numbered anyhow.
    fn finish(&mut self, network: Network) -> ZeroDelay {
        let to = self.permutation(network.nodes.len());
        self.renumber(network, &to)
    }

    fn renumber(&mut self, network: Network, to: &[u8]) -> ZeroDelay {
        let mut sheet = Sheet {
            nodes: network.nodes,
            modules: network.modules,
            drive: Vec::new(),
            watched: Vec::new(),
        };
        sheet.drive = self.events_of_inputs(&sheet);
        sheet.watched = sheet.node_numbers().collect();
        let order = self.order(sheet.modules.len());
        let numbers = network.on_loops.iter().map(|&node| to[usize::from(node)]);
        ZeroDelay {
            sheet: renumbered(&sheet, to, &order),
            on_loops: numbers.collect(),
        }
    }

    /// An event for each input that begins.
    pub(crate) fn events_of_inputs(&mut self, sheet: &Sheet) -> Vec<Event> {
        let starts = self.starts();
        let numbered = sheet.node_numbers().zip(&sheet.nodes);
        let inputs = numbered.filter(|(_, &byte)| byte == INPUT);
        let event = |(node, _)| {
            let start = self.random.pick(starts);
            let tick = self.first_tick(start)?;
            let value = self.level();
            Some(Event { tick, node, value })
        };
        inputs.filter_map(event).collect()
    }
}
