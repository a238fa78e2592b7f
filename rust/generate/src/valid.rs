//! Sheets that are accepted, of every size up to the limits.

use std::collections::BTreeMap;

use plain::{Event, Module, Sheet, INPUT};

use crate::sheets::gate;
use crate::{byte, Generator, Start};

/// How large a sheet is made.
#[derive(Debug, Clone, Copy, PartialEq, Eq)]
pub enum Size {
    /// 1 to 4 nodes.
    Tiny,
    /// 1 to 20 nodes.
    Small,
    /// 21 to 100 nodes.
    Medium,
    /// 101 to 256 nodes.
    Large,
    /// Every section at its limit: 256 nodes, all watched, and either 256 modules and no input or
    /// 255 modules, one input and 1,024 events, or none.
    Full,
}

/// What the modules and events of one sheet have in common, so that sheets differ from each other
/// more than independent choices would make them.
struct Style {
    /// How many modules of a hundred have delay zero.
    zero_delays: usize,
    longest_delay: usize,
    last_tick: usize,
    /// The values that nodes begin with and events have. Sheets with low and high alone are
    /// livelier.
    levels: &'static [u8],
    starts: &'static [Start],
}

/// Low and high.
const DEFINED: &[u8] = &[0, 1];

/// All values, low and high more often.
const MIXED: &[u8] = &[0, 0, 0, 1, 1, 1, 2, 3];

impl Generator {
    /// A sheet that is accepted.
    pub fn valid(&mut self, size: Size) -> Sheet {
        self.valid_in_style(size, Generator::style)
    }

    /// A sheet that is accepted and does much within its first ticks.
    pub fn lively(&mut self, size: Size) -> Sheet {
        self.valid_in_style(size, Generator::lively_style)
    }

    fn valid_in_style(&mut self, size: Size, style: fn(&mut Generator, Size) -> Style) -> Sheet {
        let nodes = self.node_count(size);
        let modules = self.module_count(size, nodes);
        let style = style(self, size);
        self.valid_of(size, nodes, modules, &style)
    }

    /// A sheet that is accepted, with so many inputs and so many driven nodes, and else as a small one.
    pub(crate) fn valid_with_inputs(&mut self, inputs: usize, driven: usize) -> Sheet {
        let style = self.style(Size::Small);
        self.valid_of(Size::Small, inputs + driven, driven, &style)
    }

    fn valid_of(&mut self, size: Size, nodes: usize, modules: usize, style: &Style) -> Sheet {
        // The nodes in some order, the driven ones first. A zero-delay module takes its inputs
        // from before its output or from nodes that no zero-delay module drives.
        let order = self.permutation(nodes);
        let (outputs, inputs) = order.split_at(modules);
        let sheet = Sheet {
            nodes: self.node_bytes(nodes, inputs, style),
            modules: self.modules(&order, outputs.len(), style),
            drive: self.drive(size, inputs, style),
            watched: self.watched(size, nodes),
        };
        self.reordered(&sheet)
    }

    fn node_count(&mut self, size: Size) -> usize {
        match size {
            Size::Tiny => self.random.between(1, 4),
            Size::Small => self.random.between(1, 20),
            Size::Medium => self.random.between(21, 100),
            Size::Large => self.random.between(101, 256),
            Size::Full => 256,
        }
    }

    fn module_count(&mut self, size: Size, nodes: usize) -> usize {
        if size == Size::Full {
            return self.random.between(255, 256);
        }
        match self.random.between(0, 9) {
            0 => 0,
            1 => nodes,
            2..=4 => nodes - 1,
            _ => self.random.between(0, nodes),
        }
    }

    fn style(&mut self, size: Size) -> Style {
        let last_ticks = match size {
            Size::Full => [20_000, 20_000, 999_999],
            _ => [8, 200, 999_999],
        };
        Style {
            zero_delays: self.random.pick(&[0, 20, 50, 80, 100]),
            longest_delay: self.random.pick(&[1, 3, 10, 100, 10_000]),
            last_tick: self.random.pick(&last_ticks),
            levels: self.random.pick(&[DEFINED, MIXED]),
            starts: self.starts(),
        }
    }

    fn lively_style(&mut self, _: Size) -> Style {
        Style {
            zero_delays: self.random.pick(&[0, 20, 50, 80]),
            longest_delay: self.random.pick(&[1, 3, 10, 30]),
            last_tick: self.random.pick(&[8, 30, 60]),
            levels: self.random.pick(&[DEFINED, DEFINED, MIXED]),
            starts: self.starts(),
        }
    }

    fn node_bytes(&mut self, nodes: usize, inputs: &[u8], style: &Style) -> Vec<u8> {
        let initial = (0..nodes).map(|_| self.random.pick(style.levels));
        let mut bytes: Vec<u8> = initial.collect();
        for &input in inputs {
            bytes[usize::from(input)] = INPUT;
        }
        bytes
    }

    /// Any of the values.
    pub(crate) fn level(&mut self) -> u8 {
        self.random.pick(MIXED)
    }

    fn modules(&mut self, order: &[u8], outputs: usize, style: &Style) -> Vec<Module> {
        let delays: Vec<u16> = (0..outputs).map(|_| self.delay(style)).collect();
        (0..outputs)
            .map(|place| self.module(order, &delays, place))
            .collect()
    }

    fn delay(&mut self, style: &Style) -> u16 {
        let delay = if self.random.chance(style.zero_delays) {
            0
        } else if self.random.chance(2) {
            10_000
        } else {
            self.random.between(1, style.longest_delay)
        };
        u16::try_from(delay).expect("the delay has two bytes")
    }

    /// The module that drives the node at `place` in the order.
    fn module(&mut self, order: &[u8], delays: &[u16], place: usize) -> Module {
        let kind = self.often_passing_kind();
        let mut module = Module {
            parameter: self.parameter(kind),
            ..gate(kind, [], order[place], delays[place])
        };
        let mut delay = module.delay;
        for input in module.used_inputs_mut() {
            match self.input(order, delays, place) {
                Some(node) => *input = node,
                // Nothing stands before it: a delay makes any input good.
                None => delay = 1,
            }
        }
        Module { delay, ..module }
    }

    /// An input for the module at `place`, if one is found that closes no zero-delay loop.
    fn input(&mut self, order: &[u8], delays: &[u16], place: usize) -> Option<u8> {
        // Chains grow long if a module often reads the one just before.
        if place > 0 && self.random.chance(30) {
            return Some(order[place - 1]);
        }
        let good = |from: usize| {
            let from_zero_delay = delays.get(from) == Some(&0);
            delays[place] > 0 || !from_zero_delay || from < place
        };
        let tries = [(); 8].map(|()| self.random.place(order.len()));
        let found = tries.into_iter().chain(0..place).find(|&from| good(from));
        found.map(|from| order[from])
    }

    fn drive(&mut self, size: Size, inputs: &[u8], style: &Style) -> Vec<Event> {
        let mut events = BTreeMap::new();
        let firsts = self.first_events(inputs, style);
        for &(first, input) in &firsts {
            events.insert((first, input), self.random.pick(style.levels));
        }
        if !firsts.is_empty() {
            let wanted = self.event_count(size, firsts.len());
            for _ in 0..4 * wanted {
                if events.len() < wanted {
                    let (first, input) = self.random.pick(&firsts);
                    let key = (self.tick(style).max(first), input);
                    events.insert(key, self.random.pick(style.levels));
                }
            }
        }
        let event = |((tick, node), value)| Event { tick, node, value };
        events.into_iter().map(event).collect()
    }

    /// The first tick of each input that has an event, and the input.
    fn first_events(&mut self, inputs: &[u8], style: &Style) -> Vec<(u32, u8)> {
        let first = |&input: &u8| {
            let start = self.random.pick(style.starts);
            let tick = self.first_tick(start)?;
            Some((tick, input))
        };
        inputs.iter().filter_map(first).collect()
    }

    fn tick(&mut self, style: &Style) -> u32 {
        let tick = if self.random.chance(1) {
            999_999
        } else {
            self.random.between(0, style.last_tick)
        };
        u32::try_from(tick).expect("the tick has four bytes")
    }

    fn event_count(&mut self, size: Size, inputs: usize) -> usize {
        match size {
            Size::Tiny | Size::Small => inputs + self.random.pick(&[0, 1, 5, 20]),
            Size::Medium => inputs + self.random.between(0, 200),
            Size::Large => self.random.between(inputs, 1_024),
            Size::Full => 1_024,
        }
    }

    /// Some of the nodes, rising; now and then all or none.
    fn watched(&mut self, size: Size, nodes: usize) -> Vec<u8> {
        let percent = match size {
            Size::Full => 100,
            _ => self.random.pick(&[0, 40, 80, 100, 100]),
        };
        let all = (0..nodes).map(byte);
        all.filter(|_| self.random.chance(percent)).collect()
    }
}
