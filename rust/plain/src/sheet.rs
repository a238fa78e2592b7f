//! The sheet and its records.

use crate::edition::Edition;

/// The byte of a node that is an input.
pub const INPUT: u8 = 4;

/// A network sheet, its four sections in the order of their bytes.
#[derive(Debug, Clone, Default, PartialEq, Eq)]
pub struct Sheet {
    /// For each node the initial value 0 to 3, or [`INPUT`].
    pub nodes: Vec<u8>,
    pub modules: Vec<Module>,
    pub drive: Vec<Event>,
    pub watched: Vec<u8>,
}

#[derive(Debug, Clone, Copy, PartialEq, Eq)]
pub struct Module {
    pub kind: u8,
    pub parameter: u8,
    pub output: u8,
    pub first: u8,
    pub second: u8,
    /// The first edition has none: it is 0 there.
    pub third: u8,
    pub delay: u16,
}

/// A record of the drive.
#[derive(Debug, Clone, Copy, PartialEq, Eq)]
pub struct Event {
    pub tick: u32,
    pub node: u8,
    pub value: u8,
}

impl Sheet {
    /// The sheet's bytes in an edition, whether or not they would be accepted.
    pub fn encode(&self, edition: Edition) -> Vec<u8> {
        let mut bytes = Vec::new();
        bytes.extend(count(self.nodes.len()));
        bytes.extend(&self.nodes);
        bytes.extend(count(self.modules.len()));
        let modules = self.modules.iter();
        bytes.extend(modules.flat_map(|module| module.to_bytes(edition)));
        bytes.extend(count(self.drive.len()));
        bytes.extend(self.drive.iter().flat_map(|event| event.to_bytes()));
        bytes.extend(count(self.watched.len()));
        bytes.extend(&self.watched);
        bytes
    }

    /// The modules that drive `node`, numbered as they are listed; an input has none.
    pub fn drivers(&self, node: u8) -> impl Iterator<Item = usize> + '_ {
        let modules = 0..self.modules.len();
        modules.filter(move |&module| self.modules[module].output == node)
    }

    /// Whether a module drives `node`, or several do.
    pub fn is_driven(&self, node: u8) -> bool {
        self.drivers(node).next().is_some()
    }

    /// All node numbers, in order.
    pub fn node_numbers(&self) -> impl Iterator<Item = u8> {
        (0..=u8::MAX).take(self.nodes.len())
    }

    /// Whether `node` is one of the sheet's nodes.
    pub(crate) fn has_node(&self, node: u8) -> bool {
        usize::from(node) < self.nodes.len()
    }

    /// Whether `node` is an input of the sheet.
    pub fn has_input(&self, node: u8) -> bool {
        self.has_node(node) && !self.is_driven(node)
    }

    /// The inputs of the sheet, rising.
    pub fn inputs(&self) -> impl Iterator<Item = u8> + '_ {
        self.node_numbers().filter(|&node| self.has_input(node))
    }
}

impl Module {
    /// How many inputs the kind has.
    pub fn input_count(&self) -> usize {
        match self.kind {
            0 => 0,
            1 | 2 => 1,
            3..=9 => 2,
            _ => 3,
        }
    }

    /// The inputs that the kind has.
    pub fn used_inputs(&self) -> impl Iterator<Item = u8> {
        self.inputs().into_iter().take(self.input_count())
    }

    /// The same, to be changed.
    pub fn used_inputs_mut(&mut self) -> impl Iterator<Item = &mut u8> {
        let used = self.input_count();
        let inputs = [&mut self.first, &mut self.second, &mut self.third];
        inputs.into_iter().take(used)
    }

    /// The inputs that the kind lacks.
    pub fn unused_inputs(&self) -> impl Iterator<Item = u8> {
        self.inputs().into_iter().skip(self.input_count())
    }

    fn inputs(&self) -> [u8; 3] {
        [self.first, self.second, self.third]
    }

    /// The module of a record of either edition. The third input stands before the delay.
    pub(crate) fn from_bytes(bytes: &[u8]) -> Module {
        let &[kind, parameter, output, first, second, ref third @ .., low, high] = bytes else {
            panic!("{} bytes are no module", bytes.len());
        };
        Module {
            kind,
            parameter,
            output,
            first,
            second,
            third: third.first().copied().unwrap_or(0),
            delay: u16::from_le_bytes([low, high]),
        }
    }

    fn to_bytes(self, edition: Edition) -> Vec<u8> {
        let mut bytes = vec![
            self.kind,
            self.parameter,
            self.output,
            self.first,
            self.second,
        ];
        bytes.extend((edition == Edition::Second).then_some(self.third));
        bytes.extend(self.delay.to_le_bytes());
        bytes
    }
}

impl Event {
    /// The bytes of one record.
    const BYTES: usize = 6;

    pub(crate) fn from_bytes(bytes: [u8; Event::BYTES]) -> Event {
        let [b0, b1, b2, b3, node, value] = bytes;
        Event {
            tick: u32::from_le_bytes([b0, b1, b2, b3]),
            node,
            value,
        }
    }

    fn to_bytes(self) -> [u8; Event::BYTES] {
        let [b0, b1, b2, b3] = self.tick.to_le_bytes();
        [b0, b1, b2, b3, self.node, self.value]
    }

    /// Events stand in order by tick, then by node.
    pub(crate) fn key(&self) -> (u32, u8) {
        (self.tick, self.node)
    }
}

fn count(records: usize) -> [u8; 2] {
    u16::try_from(records)
        .expect("a count has two bytes")
        .to_le_bytes()
}
