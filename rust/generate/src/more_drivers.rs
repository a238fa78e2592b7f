//! Document 02, W-209: further drivers for the nodes of a sheet.

use plain::{Module, Sheet, NONE};

use crate::limits::{MOST_EVENTS, MOST_MODULES};
use crate::sheets::*;
use crate::{byte, Generator, Size, ZeroDelay};

/// What a further driver of a node is.
#[derive(Clone, Copy)]
enum Further {
    /// The record of a driver that the node has, once more.
    Equal,
    /// Such a record with another delay, inverted where its kind has an inverter.
    Opposed,
    Clocked,
    /// A constant, mostly Z.
    Constant,
    Memory,
    Any,
}

use Further::*;

/// What the further drivers of one sheet are, so that sheets differ more than their modules.
const SORTS: [&[Further]; 8] = [
    &[Equal],
    &[Opposed],
    &[Clocked],
    &[Clocked, Constant],
    &[Constant],
    &[Memory, Clocked],
    &[Any],
    &[Equal, Opposed, Clocked, Constant, Memory, Any],
];

impl Generator {
    /// A sheet that is accepted, some of its nodes having several drivers if there is room for them.
    pub fn several_drivers(&mut self, size: Size) -> Sheet {
        loop {
            let sheet = match self.random.chance(60) {
                true => self.lively(size),
                false => self.valid(size),
            };
            if !sheet.modules.is_empty() {
                return self.with_more_drivers(sheet);
            }
        }
    }

    /// A sheet that is accepted and has as many bytes as one can: 256 nodes, one of them an input, 256
    /// modules, 1,024 events, every node watched.
    pub fn longest(&mut self) -> Sheet {
        loop {
            let sheet = self.valid(Size::Full);
            if sheet.drive.len() == MOST_EVENTS {
                return self.with_more_drivers(sheet);
            }
        }
    }

    /// Zero-delay networks whose loops are known, with further drivers, which close none.
    pub fn zero_delay_of_several_drivers(&mut self) -> ZeroDelay {
        let ZeroDelay { sheet, on_loops } = self.zero_delay();
        ZeroDelay {
            sheet: self.with_more_drivers(sheet),
            on_loops,
        }
    }

    /// The sheet with further drivers for one to three of its driven nodes, if it has any and there is
    /// room for a module. None of them closes a zero-delay loop.
    pub(crate) fn with_more_drivers(&mut self, mut sheet: Sheet) -> Sheet {
        let numbers = sheet.node_numbers();
        let driven: Vec<u8> = numbers.filter(|&node| sheet.is_driven(node)).collect();
        if driven.is_empty() {
            return sheet;
        }
        let few = [(); 3].map(|()| self.random.pick(&driven));
        let few = &few[..self.random.between(1, 3)];
        let sorts = self.random.pick(&SORTS);
        for _ in 0..self.further_drivers(MOST_MODULES - sheet.modules.len()) {
            let node = self.random.pick(few);
            let sort = self.random.pick(sorts);
            let module = self.further_driver(&sheet, node, sort);
            let place = self.random.between(0, sheet.modules.len());
            sheet.modules.insert(place, module);
        }
        sheet
    }

    /// How many: mostly a few, now and then all that there is room for.
    fn further_drivers(&mut self, room: usize) -> usize {
        let few = self.random.pick(&[1, 1, 1, 2, 2, 3, 4, 6]);
        let many = self.random.between(7, 40);
        let wanted = match self.random.between(0, 199) {
            0 => room,
            1..=9 => many,
            _ => few,
        };
        wanted.min(room)
    }

    fn further_driver(&mut self, sheet: &Sheet, node: u8, sort: Further) -> Module {
        let drivers: Vec<usize> = sheet.drivers(node).collect();
        let known = sheet.modules[self.random.pick(&drivers)];
        let kind = match sort {
            Equal => return known,
            Opposed => return self.opposed(known),
            Clocked => CLOCKED_INVERTER,
            Constant => CONSTANT,
            Memory => MEMORY,
            Any => self.often_passing_kind(),
        };
        let delay = self.further_delay(known.delay);
        let mut module = Module {
            parameter: self.further_parameter(kind),
            ..gate(kind, [], node, delay)
        };
        self.read_without_a_loop(sheet, &mut module);
        module
    }

    /// The module's inverse. A delay that it had stays one, so that no loop is closed.
    fn opposed(&mut self, module: Module) -> Module {
        let kind = match module.kind {
            BUFFER => INVERTER,
            INVERTER => BUFFER,
            AND => NAND,
            NAND => AND,
            OR => NOR,
            NOR => OR,
            AND_3 => NAND_3,
            NAND_3 => AND_3,
            OR_3 => NOR_3,
            NOR_3 => OR_3,
            kind => kind,
        };
        let later = self.random.between(1, 9) as u16;
        Module {
            kind,
            delay: self.random.pick(&[module.delay, module.delay, later]),
            ..module
        }
    }

    /// None, that of a driver that is there, or another.
    fn further_delay(&mut self, known: u16) -> u16 {
        let short = self.random.between(1, 12) as u16;
        let long = self.random.pick(&[100, 10_000]);
        self.random
            .pick(&[0, 0, 0, known, known, short, short, short, long])
    }

    /// A constant is mostly Z, and a memory mostly one that catches something.
    fn further_parameter(&mut self, kind: u8) -> u8 {
        let any = self.parameter(kind);
        match kind {
            CONSTANT => self.random.pick(&[NONE, NONE, any]),
            MEMORY => self.random.pick(&[ANY_VALUE, any]),
            _ => any,
        }
    }

    /// Lets the module read any nodes. Without a delay they are such as its output does not lead to; a
    /// delay makes any node good.
    fn read_without_a_loop(&mut self, sheet: &Sheet, module: &mut Module) {
        let led_to = match module.delay {
            0 => led_to(sheet, module.output),
            _ => vec![false; sheet.nodes.len()],
        };
        let mut closes = false;
        for input in module.used_inputs_mut() {
            let tries = [(); 6].map(|()| self.random.place(sheet.nodes.len()));
            let good = tries.into_iter().find(|&node| !led_to[node]);
            closes |= good.is_none();
            *input = byte(good.unwrap_or(tries[0]));
        }
        if closes {
            module.delay = 1;
        }
    }
}

/// The nodes that a node leads to over modules of delay zero, itself among them.
fn led_to(sheet: &Sheet, node: u8) -> Vec<bool> {
    let mut led_to = vec![false; sheet.nodes.len()];
    led_to[usize::from(node)] = true;
    let mut to_follow = vec![node];
    while let Some(from) = to_follow.pop() {
        for module in sheet.modules.iter().filter(|module| module.delay == 0) {
            let output = usize::from(module.output);
            if !led_to[output] && module.used_inputs().any(|input| input == from) {
                led_to[output] = true;
                to_follow.push(module.output);
            }
        }
    }
    led_to
}
