//! Runs with about 4,096 changes pending where they are busiest.

use plain::{rule, Module, Sheet, HIGH, INPUT, LOW, UNKNOWN};

use crate::limits::{MOST_NODES, MOST_PENDING};
use crate::sheets::*;
use crate::{byte, starts_of, Generator, RunInput, Start};

/// The kinds that pass every change on when all their inputs are one node, rising. A memory does so with
/// the whole set.
const PASSING: &[u8] = &[
    BUFFER,
    INVERTER,
    AND,
    OR,
    NAND,
    NOR,
    CLOCKED_INVERTER,
    MEMORY,
    AND_3,
    OR_3,
    XOR_3,
    NAND_3,
    NOR_3,
    MULTIPLEXER,
];

impl Generator {
    /// A lively node and delayed modules after it. The changes pending at the busiest tick are
    /// often exactly at the limit or one past it.
    pub fn crowded(&mut self) -> RunInput {
        match self.random.between(0, 2) {
            0 => self.many_at_an_oscillator(),
            1 => self.many_at_an_input(),
            _ => self.a_row(),
        }
    }

    /// Modules that read an inverter onto its own input. Once all have passed their delays, as
    /// many changes are pending as the delays have ticks together, and the inverter's own.
    fn many_at_an_oscillator(&mut self) -> RunInput {
        let modules = self.random.pick(&[1, 2, 3, 5, 16, 40, 100, 255]);
        let delays = self.delays_near_the_limit(modules);
        let longest = longest(&delays);
        let settled = self.random.chance(50);
        let mut sheet = oscillator();
        for delay in delays {
            self.add_passing(&mut sheet, 0, delay, settled);
        }
        self.with_horizon(sheet, 2 * longest + 1)
    }

    /// Modules that read an input, which changes at every tick until all its changes are pending
    /// at once: none is due before.
    fn many_at_an_input(&mut self) -> RunInput {
        let modules = self.random.pick(&[4, 5, 8, 16, 17, 64, 128, 241]);
        let changes = (self.near_the_limit() / modules).min(1_023);
        let delay = changes + self.random.between(0, 20);
        let settled = self.random.chance(80);
        let start = self.random.pick(&[Start::AtOnce, Start::Late]);
        let mut sheet = toggled_input(changes, start);
        for _ in 0..modules {
            self.add_passing(&mut sheet, 0, delay, settled);
        }
        for _ in 0..self.random.between(0, 5) {
            self.add_constant(&mut sheet, delay);
        }
        self.with_horizon(sheet, changes + delay + 1)
    }

    /// Modules in a row after an oscillator, which fill up one after the other.
    fn a_row(&mut self) -> RunInput {
        let modules = self.random.between(2, 5);
        let delays = self.delays_near_the_limit(modules);
        let longest = longest(&delays);
        let whole: usize = delays.iter().sum();
        let mut sheet = oscillator();
        for delay in delays {
            let before = byte(sheet.nodes.len() - 1);
            self.add_passing(&mut sheet, before, delay, true);
        }
        self.with_horizon(sheet, whole + longest + 1)
    }

    /// Delayed modules that pass an oscillator's changes on to one node, or to two or three. The changes
    /// pending at the busiest tick are often exactly at the limit or one past it, whatever the nodes show.
    pub fn crowded_bus(&mut self) -> RunInput {
        let modules = self.random.pick(&[2, 3, 5, 16, 40, 100, 255]);
        let delays = self.delays_near_the_limit(modules);
        let longest = longest(&delays);
        let mut sheet = oscillator();
        let buses = self.random.pick(&[1, 1, 2, 3]).min(modules);
        for (place, delay) in delays.into_iter().enumerate() {
            self.add_passing(&mut sheet, 0, delay, false);
            if place >= buses {
                share(&mut sheet, byte(1 + place % buses));
            }
        }
        self.with_horizon(sheet, 2 * longest + 1)
    }

    /// A number of pending changes at the limit, just past it or somewhere around.
    fn near_the_limit(&mut self) -> usize {
        let around = self.random.between(MOST_PENDING - 200, MOST_PENDING + 200);
        let (last, past) = (MOST_PENDING, MOST_PENDING + 1);
        self.random.pick(&[last, last, past, past, around])
    }

    /// So many delays, nearly alike, that come near the limit together with one change more.
    fn delays_near_the_limit(&mut self, modules: usize) -> Vec<usize> {
        let sum = self.near_the_limit() - 1;
        let mut delays = vec![sum / modules; modules];
        for delay in delays.iter_mut().take(sum % modules) {
            *delay += 1;
        }
        // A tick more for one and a tick less for another leaves the sum.
        for _ in 0..self.random.between(0, 5) {
            let more = self.random.place(modules);
            let less = self.random.place(modules);
            delays[more] += 1;
            delays[less] -= 1;
        }
        delays
    }

    /// Adds a module that passes on what the node does. A settled one begins as the node does.
    pub(crate) fn add_passing(&mut self, sheet: &mut Sheet, node: u8, delay: usize, settled: bool) {
        let kind = self.kind_among(PASSING);
        let initial = if settled {
            passed_on(kind, begins_with(sheet, node))
        } else {
            self.level()
        };
        add_module(sheet, kind, node, delay, initial);
    }

    /// Adds inputs that nothing reads: they never begin.
    fn add_idle_inputs(&mut self, sheet: &mut Sheet) {
        let most = (MOST_NODES - sheet.nodes.len()).min(2);
        for _ in 0..self.random.between(0, most) {
            sheet.nodes.push(INPUT);
        }
    }

    /// Adds a constant. Its one change, if it has any, is pending from the start.
    fn add_constant(&mut self, sheet: &mut Sheet, delay: usize) {
        let initial = self.level();
        add_module(sheet, CONSTANT, 0, delay, initial);
    }

    /// The sheet with some nodes watched and all numbered anyhow, and a horizon: mostly one from
    /// `enough` on, where no change of the busiest tick is cut off.
    fn with_horizon(&mut self, mut sheet: Sheet, enough: usize) -> RunInput {
        self.add_idle_inputs(&mut sheet);
        let watched = self.random.pick(&[0, 5, 50]);
        let sheet = self.numbered_anyhow(sheet, watched);
        let horizon = if self.random.chance(80) {
            self.random.between(enough, enough + 20)
        } else {
            self.random.between(enough / 2, enough)
        };
        RunInput {
            sheet,
            horizon: horizon as u32,
        }
    }
}

fn longest(delays: &[usize]) -> usize {
    delays.iter().copied().max().expect("there is a module")
}

/// Adds a module with the node at each used input.
fn add_module(sheet: &mut Sheet, kind: u8, node: u8, delay: usize, initial: u8) {
    let output = byte(sheet.nodes.len());
    let delay = u16::try_from(delay).expect("the delay has two bytes");
    let parameter = match kind {
        MEMORY => ANY_VALUE,
        _ => 0,
    };
    let mut module = Module {
        parameter,
        ..gate(kind, [], output, delay)
    };
    module.used_inputs_mut().for_each(|input| *input = node);
    sheet.nodes.push(initial);
    sheet.modules.push(module);
}

/// What a passing kind makes of a value.
fn passed_on(kind: u8, value: u8) -> u8 {
    if kind == MEMORY {
        return value;
    }
    let used = gate(kind, [], 0, 0).input_count();
    rule(kind, 0, &[value; 3][..used])
}

/// What a node has at tick 0. An input is X there if it has no event.
fn begins_with(sheet: &Sheet, node: u8) -> u8 {
    match sheet.nodes[usize::from(node)] {
        INPUT if starts_of(sheet).contains(&Start::AtOnce) => LOW,
        INPUT => UNKNOWN,
        initial => initial,
    }
}

/// An inverter onto its own input, node 0, that changes at every tick.
fn oscillator() -> Sheet {
    let mut sheet = Sheet::default();
    add_module(&mut sheet, INVERTER, 0, 1, LOW);
    sheet
}

/// An input, node 0, that changes at each tick from 1 to `changes`. Before, it is low or not known.
fn toggled_input(changes: usize, start: Start) -> Sheet {
    let level = |tick: u32| if tick.is_multiple_of(2) { LOW } else { HIGH };
    let first = u32::from(start == Start::Late);
    let ticks = first..=changes as u32;
    Sheet {
        nodes: vec![INPUT],
        drive: ticks.map(|tick| event(tick, 0, level(tick))).collect(),
        ..Sheet::default()
    }
}

/// The last module drives this node, instead of the one that was added for it.
fn share(sheet: &mut Sheet, node: u8) {
    sheet.nodes.pop();
    let last = sheet.modules.last_mut();
    last.expect("a module was added").output = node;
}
