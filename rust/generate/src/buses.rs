//! Document 02, W-209: buses, nodes that clocked inverters drive in turn.

use plain::{Event, Sheet, HIGH, INPUT, LOW, UNKNOWN};

use crate::sheets::*;
use crate::{byte, Generator, RunInput};

/// The nodes of a sheet of buses by what they are for.
struct Parts {
    /// An input for each driver of a bus: its clock on every bus.
    clocks: Vec<u8>,
    /// Inputs that inverters read.
    data: Vec<u8>,
    buses: Vec<u8>,
}

impl Generator {
    /// One to three buses, each with an inverter for each clock, and what reads them. Mostly one clock is
    /// high at a time: the next one rises when it falls, a few ticks before or a few ticks later.
    pub fn bus(&mut self) -> RunInput {
        let (mut sheet, parts) = self.unwired_buses();
        for &bus in &parts.buses {
            self.add_inverters(&mut sheet, &parts, bus);
        }
        self.add_readers(&mut sheet, &parts);
        let last_tick = self.take_turns(&mut sheet, &parts);
        self.change_data(&mut sheet, &parts, last_tick);
        self.start_and_sort(&mut sheet);
        let horizon = self.random.between(1, last_tick + 10);
        let watched = self.random.pick(&[30, 100, 100]);
        RunInput {
            sheet: self.numbered_anyhow(sheet, watched),
            horizon: horizon as u32,
        }
    }

    fn unwired_buses(&mut self) -> (Sheet, Parts) {
        let mut sheet = Sheet::default();
        let mut add = |nodes: Vec<u8>| -> Vec<u8> {
            let from = sheet.nodes.len();
            sheet.nodes.extend(nodes);
            (from..sheet.nodes.len()).map(byte).collect()
        };
        let clocks = self.random.pick(&[2, 2, 2, 3, 3, 4, 5, 8, 20]);
        let clocks = add(vec![INPUT; clocks]);
        let data = add(vec![INPUT; self.random.between(1, 3)]);
        let buses = self.random.between(1, 3);
        let initial = (0..buses).map(|_| byte(self.random.between(0, 3)));
        let buses = add(initial.collect());
        let parts = Parts {
            clocks,
            data,
            buses,
        };
        (sheet, parts)
    }

    /// An inverter for each clock. Of one bus they are all without delay, all of one delay, or each of its
    /// own.
    fn add_inverters(&mut self, sheet: &mut Sheet, parts: &Parts, bus: u8) {
        let one = self.random.between(1, 6) as u16;
        let own = self
            .random
            .pick(&[[0, 0, 0], [one, one, one], [1, 2, 5], [0, 0, one]]);
        for &clock in &parts.clocks {
            let data = self.random.pick(&parts.data);
            let delay = self.random.pick(&own);
            let inverter = gate(CLOCKED_INVERTER, [data, clock], bus, delay);
            sheet.modules.push(inverter);
        }
    }

    /// Modules that pass on what a bus does. A delayed one may be what an inverter reads.
    fn add_readers(&mut self, sheet: &mut Sheet, parts: &Parts) {
        let inverters = sheet.modules.len();
        for _ in 0..self.random.between(0, 4) {
            let bus = self.random.pick(&parts.buses);
            let delay = self.random.pick(&[0, 0, 1, 2, 4]);
            self.add_passing(sheet, bus, delay, false);
            if delay > 0 && self.random.chance(60) {
                let inverter = self.random.place(inverters);
                sheet.modules[inverter].first = byte(sheet.nodes.len() - 1);
            }
        }
    }

    /// One clock after the other is high for a while, now and then X. Gives a tick by which the last one has
    /// fallen.
    fn take_turns(&mut self, sheet: &mut Sheet, parts: &Parts) -> usize {
        let longest = self.random.pick(&[1, 3, 8]);
        let is_clean = self.random.chance(50);
        let mut tick = self.random.between(0, 4);
        for _ in 0..self.random.between(2, 16) {
            let clock = self.random.pick(&parts.clocks);
            let high = self.random.between(1, longest);
            let level = if self.random.chance(5) { UNKNOWN } else { HIGH };
            set(sheet, tick, clock, level);
            set(sheet, tick + high, clock, LOW);
            let apart = if is_clean {
                2
            } else {
                self.random.between(0, 4)
            };
            tick = (tick + high + apart).saturating_sub(2);
        }
        tick + longest
    }

    fn change_data(&mut self, sheet: &mut Sheet, parts: &Parts, last_tick: usize) {
        for _ in 0..self.random.between(1, 20) {
            let tick = self.random.between(0, last_tick);
            let node = self.random.pick(&parts.data);
            let value = self.level();
            set(sheet, tick, node, value);
        }
    }

    /// Inputs without an event at tick 0 get one, low, but for some of the inputs of a few sheets, which begin
    /// late. Events stand in order.
    fn start_and_sort(&mut self, sheet: &mut Sheet) {
        let is_late = self.random.chance(20);
        let numbered = sheet.node_numbers().zip(sheet.nodes.clone());
        for (node, _) in numbered.filter(|&(_, byte)| byte == INPUT) {
            let mut own = sheet.drive.iter().filter(|event| event.node == node);
            let has_start = own.any(|event| event.tick == 0);
            let is_left_out = has_start || is_late && self.random.chance(30);
            if !is_left_out {
                set(sheet, 0, node, LOW);
            }
        }
        sheet
            .drive
            .sort_unstable_by_key(|event| (event.tick, event.node));
    }
}

/// The input's value from this tick on. One that is set twice at a tick has what was set last.
fn set(sheet: &mut Sheet, tick: usize, node: u8, value: u8) {
    let event = Event {
        tick: tick as u32,
        node,
        value,
    };
    sheet
        .drive
        .retain(|other| (other.tick, other.node) != (event.tick, event.node));
    sheet.drive.push(event);
}
