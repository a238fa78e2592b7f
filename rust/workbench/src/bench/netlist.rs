//! What a .bench file declares, with all that a sheet's limits and its names ask for.

use std::collections::{HashMap, HashSet};

use super::gate::Gate;
use super::scan::{Place, Token};
use crate::contents::{MOST_MODULES, MOST_NODES, MOST_WATCHED};
use crate::mistake::{quoted, Mistake};

/// The input that all flip-flops take as their clock.
pub const CLOCK: &str = "clock";

/// A name and where it stands.
#[derive(Debug, Clone, Copy)]
pub struct Name<'a> {
    pub text: &'a str,
    pub place: Place,
}

/// A gate or a flip-flop of the file.
#[derive(Debug)]
pub struct Part<'a> {
    pub output: &'a str,
    pub gate: Gate,
    pub inputs: Vec<&'a str>,
}

/// The statements of a file, which are few: a sheet's limits are looked at as they come.
#[derive(Debug, Default)]
pub struct Netlist<'a> {
    pub inputs: Vec<&'a str>,
    pub parts: Vec<Part<'a>>,
    /// Each once.
    pub outputs: Vec<&'a str>,
    defined: HashMap<&'a str, Definition>,
    /// Each used name where it is used first, in the order of the file.
    uses: Vec<Name<'a>>,
    used: HashSet<&'a str>,
    watched: HashSet<&'a str>,
    /// The nodes and modules of the text so far.
    nodes: usize,
    modules: usize,
    has_flip_flop: bool,
}

#[derive(Debug, Clone, Copy)]
struct Definition {
    place: Place,
    is_input: bool,
}

impl<'a> Netlist<'a> {
    /// Adds an input, whose statement begins at this place.
    pub fn input(&mut self, name: Name<'a>, statement: Place) -> Result<(), Mistake> {
        self.define(name, true)?;
        // A flip-flop may have asked for the clock already.
        if !(self.has_flip_flop && name.text == CLOCK) {
            self.add_nodes(1, statement)?;
        }
        self.inputs.push(name.text);
        Ok(())
    }

    /// Adds an output, if it is none yet.
    pub fn output(&mut self, name: Name<'a>, statement: Place) -> Result<(), Mistake> {
        if !self.watched.insert(name.text) {
            return Ok(());
        }
        at_most(MOST_WATCHED, self.watched.len(), "watched node", statement)?;
        self.outputs.push(name.text);
        self.use_first(name);
        Ok(())
    }

    /// Adds a gate. There is room for its modules.
    pub fn gate(
        &mut self,
        output: Name<'a>,
        gate: Gate,
        inputs: Vec<Name<'a>>,
    ) -> Result<(), Mistake> {
        self.define(output, false)?;
        if gate == Gate::FlipFlop && !self.has_flip_flop {
            self.has_flip_flop = true;
            let clock = usize::from(!self.defined.contains_key(CLOCK));
            self.add_nodes(clock, output.place)?;
        }
        let modules = gate.modules(inputs.len());
        self.add_nodes(modules, output.place)?;
        self.modules += modules;
        for &input in &inputs {
            self.use_first(input);
        }
        self.parts.push(Part {
            output: output.text,
            gate,
            inputs: inputs.into_iter().map(|input| input.text).collect(),
        });
        Ok(())
    }

    /// Whether there is room for so many modules of a statement at this place.
    pub fn has_room_for(&self, modules: usize, statement: Place) -> Result<(), Mistake> {
        at_most(MOST_MODULES, self.modules + modules, "module", statement)
    }

    fn add_nodes(&mut self, count: usize, statement: Place) -> Result<(), Mistake> {
        self.nodes += count;
        at_most(MOST_NODES, self.nodes, "node", statement)
    }

    fn define(&mut self, name: Name<'a>, is_input: bool) -> Result<(), Mistake> {
        let place = name.place;
        let before = self
            .defined
            .insert(name.text, Definition { place, is_input });
        match before {
            None => Ok(()),
            Some(before) => Err(place.mistake(
                format!("a second definition of {}", quoted(name.text)),
                format!("one, and line {} has it", before.place.line),
            )),
        }
    }

    fn use_first(&mut self, name: Name<'a>) {
        if self.used.insert(name.text) {
            self.uses.push(name);
        }
    }

    /// The netlist once the whole file is read, up to its end.
    pub fn finished(self, end: Token) -> Result<Netlist<'a>, Mistake> {
        self.clock_is_an_input()?;
        self.uses_are_defined()?;
        match self.nodes {
            0 => Err(end.mistake("an input or a gate: a sheet has at least one node")),
            _ => Ok(self),
        }
    }

    fn clock_is_an_input(&self) -> Result<(), Mistake> {
        match self.defined.get(CLOCK) {
            Some(clock) if self.has_flip_flop && !clock.is_input => Err(clock.place.mistake(
                format!("{} with a gate", quoted(CLOCK)),
                "an input, since flip-flops have it as their clock",
            )),
            _ => Ok(()),
        }
    }

    fn uses_are_defined(&self) -> Result<(), Mistake> {
        let is_undefined = |name: &&Name| !self.defined.contains_key(name.text);
        match self.uses.iter().find(is_undefined) {
            None => Ok(()),
            Some(name) => Err(name.place.mistake(
                format!("{}, which no statement defines", quoted(name.text)),
                "an input or a gate of the netlist",
            )),
        }
    }

    /// Whether the text has an input for the clock that the file does not have.
    pub fn needs_clock(&self) -> bool {
        self.has_flip_flop && !self.defined.contains_key(CLOCK)
    }

    pub fn has_flip_flop(&self) -> bool {
        self.has_flip_flop
    }

    /// All names that the file defines.
    pub fn names(&self) -> impl Iterator<Item = &'a str> + '_ {
        self.defined.keys().copied()
    }
}

/// Where there are more things than a sheet has, the statement that would declare the first too many is at fault.
fn at_most(most: usize, count: usize, thing: &str, statement: Place) -> Result<(), Mistake> {
    match count <= most {
        true => Ok(()),
        false => Err(statement.mistake(
            format!("{thing} {}", most + 1),
            format!("at most {most} {thing}s"),
        )),
    }
}
