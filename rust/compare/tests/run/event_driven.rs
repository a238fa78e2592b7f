//! A small event-driven simulator, which can be given each of document 01's faults, and faults with nodes
//! that have several drivers.

use std::collections::{BTreeMap, BTreeSet};

use generate::ends::ended;
use generate::sheets::{Change, Record, MEMORY};
use plain::{in_set, join, rule, Module, Sheet, HIGH, INPUT, LOW, NONE, UNKNOWN};

#[derive(Debug, Clone, Copy, PartialEq, Eq)]
pub enum Fault {
    /// "Faults seen in such simulators", in document 01's order. A module is settled at the first change in
    /// a tick.
    FirstChange,
    /// A new result is compared with the node's present value, not with the last one scheduled.
    PresentValue,
    /// What is pending is dropped when the next change is scheduled.
    Swallowed,
    /// Only modules with a changed input are worked at tick 0.
    QuietStart,
    /// A memory is worked at values that pass inside a tick.
    PassingValue,
    /// Of contributions to one node: Z wins over a value.
    NoneWins,
    /// The driver that is listed last wins.
    LastDriver,
    /// A clash of 0 and 1 gives 0.
    ClashIsLow,
    /// What is pending is counted once for each node and tick.
    PendingOnNode,
    /// A node's first driver is forgotten once it has another.
    Forgotten,
}

pub const FAULTS: [Fault; 10] = [
    Fault::FirstChange,
    Fault::PresentValue,
    Fault::Swallowed,
    Fault::QuietStart,
    Fault::PassingValue,
    Fault::NoneWins,
    Fault::LastDriver,
    Fault::ClashIsLow,
    Fault::PendingOnNode,
    Fault::Forgotten,
];

/// What a run comes to that nothing refuses.
#[derive(Debug, PartialEq, Eq)]
pub struct Outcome {
    pub records: Vec<Record>,
    /// The most changes that are pending after a tick.
    pub most_pending: usize,
}

/// The run of an accepted sheet up to the horizon, with one fault or none.
pub fn run(sheet: &Sheet, horizon: u32, fault: Option<Fault>) -> Outcome {
    let mut simulator = Simulator::new(sheet, horizon, fault);
    let mut most_pending = 0;
    while let Some((tick, changes)) = simulator.pending.pop_first() {
        simulator.tick(tick, &changes);
        simulator.list(tick);
        most_pending = most_pending.max(simulator.count_pending());
    }
    Outcome {
        records: ended(&simulator.changes, horizon),
        most_pending,
    }
}

/// Whose value is new: an input's, or a module's contribution.
#[derive(Clone, Copy, PartialEq, Eq)]
enum Giver {
    Input(u8),
    Module(usize),
}

type NewValue = (Giver, u8);

struct Simulator<'a> {
    sheet: &'a Sheet,
    horizon: u32,
    fault: Option<Fault>,
    /// The zero-delay modules, each after those that drive its used inputs.
    zero_delay: Vec<usize>,
    delayed: Vec<usize>,
    /// The modules that drive each node.
    drivers: Vec<Vec<usize>>,
    /// The present contribution of each module.
    given: Vec<u8>,
    /// The present value of each node.
    present: Vec<u8>,
    /// What each module came to last, which is also what a memory holds.
    last: Vec<u8>,
    /// The changes to come, drive events included, by tick.
    pending: BTreeMap<u32, Vec<NewValue>>,
    /// The nodes that changed in this tick.
    changed: Vec<bool>,
    /// The value of each node as it was listed last.
    listed: Vec<Option<u8>>,
    /// What has been listed so far.
    changes: Vec<Change>,
}

impl<'a> Simulator<'a> {
    fn new(sheet: &'a Sheet, horizon: u32, fault: Option<Fault>) -> Simulator<'a> {
        let initial = |module: &Module| sheet.nodes[usize::from(module.output)];
        let given: Vec<u8> = sheet.modules.iter().map(initial).collect();
        let modules = 0..sheet.modules.len();
        let drivers = sheet.node_numbers().map(|v| sheet.drivers(v).collect());
        Simulator {
            sheet,
            horizon,
            fault,
            zero_delay: working_order(sheet),
            delayed: modules.filter(|&m| sheet.modules[m].delay > 0).collect(),
            drivers: drivers.collect(),
            last: given.clone(),
            given,
            present: sheet.nodes.iter().map(|&byte| first_value(byte)).collect(),
            pending: drive(sheet, horizon),
            changed: vec![false; sheet.nodes.len()],
            listed: vec![None; sheet.nodes.len()],
            changes: Vec::new(),
        }
    }

    fn tick(&mut self, tick: u32, changes: &[NewValue]) {
        self.changed.fill(false);
        if self.fault == Some(Fault::FirstChange) && tick > 0 {
            let mut settled = vec![false; self.sheet.modules.len()];
            for &change in changes {
                self.pass_on(tick, change, &mut settled);
            }
            return;
        }
        for &change in changes {
            self.take(change);
        }
        if self.fault == Some(Fault::PassingValue) {
            self.settle_by_passes(tick);
        } else {
            self.settle(tick);
        }
        for module in self.delayed.clone() {
            if self.is_due(module, tick) {
                self.schedule(module, tick);
            }
        }
    }

    /// Takes a new value. Gives its node and whether that has changed.
    fn take(&mut self, (giver, value): NewValue) -> (u8, bool) {
        let (node, value) = match giver {
            Giver::Input(node) => (node, value),
            Giver::Module(module) => {
                self.given[module] = value;
                let node = self.sheet.modules[module].output;
                (node, self.joined(node))
            }
        };
        let place = usize::from(node);
        let has_changed = self.present[place] != value;
        self.changed[place] |= has_changed;
        self.present[place] = value;
        (node, has_changed)
    }

    /// What the contributions to a node come to.
    fn joined(&self, node: u8) -> u8 {
        let drivers = &self.drivers[usize::from(node)];
        let known = match (self.fault, &drivers[..]) {
            (Some(Fault::LastDriver), [.., last]) => std::slice::from_ref(last),
            (Some(Fault::Forgotten), [_, others @ ..]) if !others.is_empty() => others,
            (_, all) => all,
        };
        let given = known.iter().map(|&module| self.given[module]);
        let join = match self.fault {
            Some(Fault::NoneWins) => none_wins,
            Some(Fault::ClashIsLow) => clash_is_low,
            _ => join,
        };
        given.reduce(join).expect("a module drives it")
    }

    /// Whether the module is to be worked at this tick.
    fn is_due(&self, module: usize, tick: u32) -> bool {
        let mut used = self.sheet.modules[module].used_inputs();
        let starts = tick == 0 && self.fault != Some(Fault::QuietStart);
        starts || used.any(|node| self.changed[usize::from(node)])
    }

    /// Works the zero-delay modules once each.
    fn settle(&mut self, tick: u32) {
        for module in self.zero_delay.clone() {
            if self.is_due(module, tick) {
                let value = self.result(module);
                self.take((Giver::Module(module), value));
            }
        }
    }

    /// Works the zero-delay modules as they are listed, again and again until nothing changes.
    fn settle_by_passes(&mut self, tick: u32) {
        let mut as_listed = self.zero_delay.clone();
        as_listed.sort_unstable();
        loop {
            let before = self.given.clone();
            for &module in &as_listed {
                if self.is_due(module, tick) {
                    let value = self.result(module);
                    self.take((Giver::Module(module), value));
                }
            }
            if self.given == before {
                return;
            }
        }
    }

    /// Takes the value and settles at once what reads its node, if it is not settled yet.
    fn pass_on(&mut self, tick: u32, change: NewValue, settled: &mut [bool]) {
        let (node, true) = self.take(change) else {
            return;
        };
        for (m, module) in self.sheet.modules.iter().enumerate() {
            if settled[m] || !module.used_inputs().any(|input| input == node) {
                continue;
            }
            settled[m] = true;
            if module.delay == 0 {
                let value = self.result(m);
                self.pass_on(tick, (Giver::Module(m), value), settled);
            } else {
                self.schedule(m, tick);
            }
        }
    }

    /// What the module comes to over the present values.
    fn result(&mut self, module: usize) -> u8 {
        let m = &self.sheet.modules[module];
        let used = m.used_inputs();
        let values: Vec<u8> = used.map(|node| self.present[usize::from(node)]).collect();
        let value = match values[..] {
            [first, second] if m.kind == MEMORY => match in_set(m.parameter, second) {
                true => first,
                false => self.last[module],
            },
            _ => rule(m.kind, m.parameter, &values),
        };
        self.last[module] = value;
        value
    }

    /// Schedules what the module comes to, if it is new.
    fn schedule(&mut self, module: usize, tick: u32) {
        let Module { output, delay, .. } = self.sheet.modules[module];
        let before = match self.fault {
            Some(Fault::PresentValue) => self.present[usize::from(output)],
            _ => self.last[module],
        };
        let value = self.result(module);
        let due = tick + u32::from(delay);
        if value == before || due >= self.horizon {
            return;
        }
        let giver = Giver::Module(module);
        if self.fault == Some(Fault::Swallowed) {
            for changes in self.pending.values_mut() {
                changes.retain(|&(other, _)| other != giver);
            }
        }
        self.pending.entry(due).or_default().push((giver, value));
    }

    /// How many changes of modules are pending.
    fn count_pending(&self) -> usize {
        let changes = self.pending.values().flatten();
        let of_modules = changes.filter(|(giver, _)| matches!(giver, Giver::Module(_)));
        match self.fault {
            Some(Fault::PendingOnNode) => self.pending.values().map(|c| self.nodes_of(c)).sum(),
            _ => of_modules.count(),
        }
    }

    /// How many nodes these changes are for, inputs aside.
    fn nodes_of(&self, changes: &[NewValue]) -> usize {
        let node = |&(giver, _): &NewValue| match giver {
            Giver::Module(module) => Some(self.sheet.modules[module].output),
            Giver::Input(_) => None,
        };
        let nodes: BTreeSet<u8> = changes.iter().filter_map(node).collect();
        nodes.len()
    }

    /// Lists the watched nodes that are not as they were listed last.
    fn list(&mut self, tick: u32) {
        for &node in &self.sheet.watched {
            let value = self.present[usize::from(node)];
            let listed = self.listed[usize::from(node)].replace(value);
            if listed != Some(value) {
                self.changes.push((tick, node, value));
            }
        }
    }
}

fn none_wins(one: u8, other: u8) -> u8 {
    match (one, other) {
        (NONE, _) | (_, NONE) => NONE,
        _ => join(one, other),
    }
}

fn clash_is_low(one: u8, other: u8) -> u8 {
    match (one, other) {
        (LOW, HIGH) | (HIGH, LOW) => LOW,
        _ => join(one, other),
    }
}

/// What a node has before tick 0: a driven node its initial value, an input X.
fn first_value(byte: u8) -> u8 {
    match byte {
        INPUT => UNKNOWN,
        initial => initial,
    }
}

/// The drive events below the horizon. Tick 0 is there even if nothing happens at it.
fn drive(sheet: &Sheet, horizon: u32) -> BTreeMap<u32, Vec<NewValue>> {
    let mut pending = BTreeMap::from([(0, Vec::new())]);
    for event in sheet.drive.iter().filter(|event| event.tick < horizon) {
        let changes: &mut Vec<NewValue> = pending.entry(event.tick).or_default();
        changes.push((Giver::Input(event.node), event.value));
    }
    pending
}

/// The zero-delay modules, each after those that drive its used inputs.
fn working_order(sheet: &Sheet) -> Vec<usize> {
    let modules = 0..sheet.modules.len();
    let mut waiting: Vec<usize> = modules.filter(|&m| sheet.modules[m].delay == 0).collect();
    let mut order = Vec::new();
    while !waiting.is_empty() {
        let outputs: Vec<u8> = waiting.iter().map(|&m| sheet.modules[m].output).collect();
        let waits = |m: &usize| {
            let mut used = sheet.modules[*m].used_inputs();
            used.any(|node| outputs.contains(&node))
        };
        let ready = waiting.iter().copied().filter(|m| !waits(m));
        let before = order.len();
        order.extend(ready);
        assert!(order.len() > before, "an accepted sheet has no loop");
        waiting.retain(waits);
    }
    order
}
