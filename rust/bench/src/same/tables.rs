//! The sheet's modules and the gates' rules, laid out for the run.

use generate::sheets::{AND, AND_3, BUFFER, CONSTANT, MEMORY};
use plain::{in_set, rule, Sheet};

use super::order::in_working_order;

/// Where the rules of two inputs begin, those of three, and where all end.
const START_OF_TWO: u16 = 8;
const START_OF_THREE: u16 = 104;
const NO_TABLE: u16 = 488;

/// The bytes of a module: kind, parameter, output, the three inputs, 1 where its output has other drivers and
/// else 0, and one unused.
pub type Bytes = [u8; 8];

pub struct Tables {
    /// The gates' rules, kind after kind, the first input's value counting most.
    gates: [u8; NO_TABLE as usize],
    /// The modules in working order.
    modules: Vec<Bytes>,
    /// Where the rule of each module's kind begins.
    starts: Vec<u16>,
    delays: Vec<u16>,
    /// How many of them are delayed. They stand first.
    delayed: usize,
    /// Whether a node has several drivers. Where none has, no flag is looked at.
    pub shared: bool,
}

impl Tables {
    pub fn new(sheet: &Sheet) -> Tables {
        let order = in_working_order(sheet);
        let has_others = |output| sheet.drivers(output).count() > 1;
        let bytes = order.iter().map(|m| {
            [
                m.kind,
                m.parameter,
                m.output,
                m.first,
                m.second,
                m.third,
                u8::from(has_others(m.output)),
                0,
            ]
        });
        Tables {
            gates: std::array::from_fn(gate),
            modules: bytes.collect(),
            starts: order.iter().map(|module| start(module.kind)).collect(),
            delays: order.iter().map(|module| module.delay).collect(),
            delayed: order.iter().filter(|module| module.delay > 0).count(),
            shared: order.iter().any(|module| has_others(module.output)),
        }
    }

    /// The outputs of the modules, in working order.
    pub fn outputs(&self) -> impl Iterator<Item = u8> + '_ {
        self.modules.iter().map(|&[_, _, output, ..]| output)
    }

    /// The output of the module at a position.
    pub fn output(&self, position: usize) -> u8 {
        self.modules[position][2]
    }

    /// Whether the node that the module at a position drives has other drivers.
    pub fn has_others(&self, position: usize) -> bool {
        self.shared && self.modules[position][6] != 0
    }

    /// The delayed modules with their starts and delays.
    pub fn delayed(&self) -> impl Iterator<Item = (&Bytes, u16, u16)> {
        let modules = self.modules[..self.delayed].iter();
        let kept = self.starts.iter().zip(&self.delays);
        modules
            .zip(kept)
            .map(|(module, (&start, &delay))| (module, start, delay))
    }

    /// The modules of delay zero with their starts, and the position of the first.
    pub fn zero_delay(&self) -> (usize, impl Iterator<Item = (&Bytes, u16)>) {
        let starts = self.starts[self.delayed..].iter().copied();
        (
            self.delayed,
            self.modules[self.delayed..].iter().zip(starts),
        )
    }

    /// What a module comes to over the values, holding the value that it came to last. Its start tells how
    /// many inputs are looked up; its kind is looked at where it has no table.
    pub fn comes_to(&self, module: &Bytes, start: u16, values: &[u8; 256], held: u8) -> u8 {
        let &[kind, parameter, _, first, second, third, ..] = module;
        let value = |node: u8| values[usize::from(node)];
        let entry = |place: usize| self.gates[usize::from(start) + place];
        let first = value(first);
        if start < START_OF_TWO {
            return entry(usize::from(first));
        }
        let second = value(second);
        let pair = 4 * usize::from(first) + usize::from(second);
        if start < START_OF_THREE {
            return entry(pair);
        }
        if start < NO_TABLE {
            return entry(4 * pair + usize::from(value(third)));
        }
        if kind == CONSTANT {
            return parameter;
        }
        if in_set(parameter, second) {
            first
        } else {
            held
        }
    }
}

/// Where a kind's rule begins, and the end of all for a kind that is no gate with inputs.
fn start(kind: u8) -> u16 {
    match kind {
        CONSTANT | MEMORY => NO_TABLE,
        BUFFER..AND => 4 * u16::from(kind - BUFFER),
        AND..MEMORY => START_OF_TWO + 16 * u16::from(kind - AND),
        _ => START_OF_THREE + 64 * u16::from(kind - AND_3),
    }
}

/// An entry of the laid-out rules.
fn gate(place: usize) -> u8 {
    let [of_two, of_three] = [START_OF_TWO, START_OF_THREE].map(usize::from);
    if place < of_two {
        entry(BUFFER, 1, place)
    } else if place < of_three {
        entry(AND, 2, place - of_two)
    } else {
        entry(AND_3, 3, place - of_three)
    }
}

/// An entry of the rules of so many inputs, which begin with this kind's.
fn entry(from: u8, inputs: u32, place: usize) -> u8 {
    let part = |i| place / 4_usize.pow(i);
    let values: Vec<u8> = (0..inputs).rev().map(|i| (part(i) % 4) as u8).collect();
    rule(from + part(inputs) as u8, 0, &values)
}
