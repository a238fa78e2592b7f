//! Document 02's W-209, nodes with several drivers, seen from a sheet and its timelines.

use plain::{timelines, Module, Sheet, HIGH, LOW, NONE, UNKNOWN};

use crate::assert_met;
use crate::sheets::{CONSTANT, MEMORY};

/// Whether a node of the sheet has several drivers.
pub fn has_several_drivers(sheet: &Sheet) -> bool {
    let mut modules = sheet.modules.iter().enumerate();
    modules.any(|(place, module)| {
        let mut earlier = sheet.modules[..place].iter();
        earlier.any(|other| other.output == module.output)
    })
}

/// How often nodes with several drivers were met.
#[derive(Debug, Default)]
pub struct DriversMet {
    /// Nodes of two drivers, of three, of four to 15, and of more.
    of_two: u64,
    of_three: u64,
    of_more: u64,
    of_many: u64,
    /// Those that begin with each value.
    begun: [u64; 4],
    /// Those two of whose drivers are equal records.
    equal_records: u64,
    /// Those with a driver without delay and one with a delay.
    mixed_delays: u64,
    /// Those that two modules without delay drive.
    zero_delay_twice: u64,
    /// Those that a memory drives.
    memories: u64,
    /// Those that a constant Z drives.
    constants_of_z: u64,
    pub said: SaidMet,
}

/// At how many ticks the drivers of such a node said what.
#[derive(Debug, Default)]
pub struct SaidMet {
    /// One says 0 and another 1.
    clashes: u64,
    /// One alone says X, and none both 0 and 1.
    unknown: u64,
    /// One alone says 0 or 1, and all others Z.
    value: u64,
    /// Several say 0, or several 1, and the others Z.
    equal_values: u64,
    /// All say Z.
    none: u64,
    /// A contribution changes and the node does not.
    hidden: u64,
    /// Two contributions change.
    together: u64,
    /// They clash, and a change of one of them is pending then.
    clash_and_pending: u64,
}

impl DriversMet {
    /// Adds the nodes with several drivers of an accepted sheet, up to the horizon.
    pub fn add(&mut self, sheet: &Sheet, horizon: u32) {
        let all = timelines(sheet, horizon);
        for node in sheet.node_numbers() {
            let places: Vec<usize> = sheet.drivers(node).collect();
            if places.len() < 2 {
                continue;
            }
            let drivers: Vec<Driver> = places
                .into_iter()
                .map(|place| (sheet.modules[place], &all.contributions[place][..]))
                .collect();
            self.add_node(&drivers, sheet.nodes[usize::from(node)]);
            self.said.add(&drivers, &all.cells[usize::from(node)]);
        }
    }

    fn add_node(&mut self, drivers: &[Driver], initial: u8) {
        match drivers.len() {
            2 => self.of_two += 1,
            3 => self.of_three += 1,
            4..16 => self.of_more += 1,
            _ => self.of_many += 1,
        }
        self.begun[usize::from(initial)] += 1;
        let modules: Vec<Module> = drivers.iter().map(|&(module, _)| module).collect();
        let without_delay = modules.iter().filter(|module| module.delay == 0).count();
        let any = |is: fn(&Module) -> bool| u64::from(modules.iter().any(is));
        let is_repeated = |(place, module): (usize, &Module)| modules[..place].contains(module);
        self.equal_records += u64::from(modules.iter().enumerate().any(is_repeated));
        self.mixed_delays += u64::from(without_delay > 0 && without_delay < modules.len());
        self.zero_delay_twice += u64::from(without_delay > 1);
        self.memories += any(|module| module.kind == MEMORY);
        self.constants_of_z += any(|m| m.kind == CONSTANT && m.parameter == NONE);
    }

    /// Asserts that everything was met at least so often.
    pub fn assert_often(&self, least: u64, whence: &str) {
        let [low, high, unknown, none] = self.begun;
        let met = [
            self.of_two,
            self.of_three,
            self.of_more,
            self.of_many,
            low,
            high,
            unknown,
            none,
            self.equal_records,
            self.mixed_delays,
            self.zero_delay_twice,
            self.memories,
            self.constants_of_z,
        ];
        assert_met(&met, least, &[], &format!("{whence}: {self:?}"));
        self.said.assert_often(least, whence);
    }
}

/// A module that drives the node, and its contributions.
type Driver<'a> = (Module, &'a [u8]);

impl SaidMet {
    fn add(&mut self, drivers: &[Driver], cells: &[u8]) {
        let is_pending = pending_after(drivers, cells.len());
        for tick in 0..cells.len() {
            let said = drivers.iter().map(|(_, given)| given[tick]);
            self.add_values(&said.collect::<Vec<u8>>(), is_pending[tick]);
            if tick > 0 {
                let has_changed = |(_, given): &&Driver| given[tick] != given[tick - 1];
                let changed = drivers.iter().filter(has_changed).count();
                self.hidden += u64::from(changed > 0 && cells[tick] == cells[tick - 1]);
                self.together += u64::from(changed > 1);
            }
        }
    }

    fn add_values(&mut self, said: &[u8], is_pending: bool) {
        let count = |value: u8| said.iter().filter(|&&other| other == value).count();
        match [LOW, HIGH, UNKNOWN, NONE].map(count) {
            [1..=256, 1..=256, ..] => {
                self.clashes += 1;
                self.clash_and_pending += u64::from(is_pending);
            }
            [_, _, 1, _] => self.unknown += 1,
            [1, 0, 0, _] | [0, 1, 0, _] => self.value += 1,
            [_, _, 0, _] if said.iter().any(|&value| value != NONE) => self.equal_values += 1,
            [0, 0, 0, _] => self.none += 1,
            _ => {}
        }
    }

    /// Asserts that everything was met at least so often.
    pub fn assert_often(&self, least: u64, whence: &str) {
        let met = [
            self.clashes,
            self.unknown,
            self.value,
            self.equal_values,
            self.none,
            self.hidden,
            self.together,
            self.clash_and_pending,
        ];
        assert_met(&met, least, &[], &format!("{whence}: {self:?}"));
    }
}

/// Whether a change of one of these is pending after each tick.
fn pending_after(drivers: &[Driver], horizon: usize) -> Vec<bool> {
    let mut is_pending = vec![false; horizon];
    for (module, given) in drivers {
        for u in (1..horizon).filter(|&u| given[u] != given[u - 1]) {
            is_pending[u.saturating_sub(module.delay.into())..u].fill(true);
        }
    }
    is_pending
}
