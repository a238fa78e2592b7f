//! A netlist as a text.

use std::borrow::Borrow;
use std::iter;

use timing::Edition;

use super::gate::{Gate, Tree};
use super::names::Names;
use super::netlist::{Netlist, Part, CLOCK};
use crate::text::first_word;

/// The delay of a flip-flop, from the clock's rise on.
const FLIP_FLOP_DELAY: u16 = 1;

/// The text of a netlist whose gates have this delay. A blank line stands between its sections.
pub fn text(netlist: &Netlist, delay: u16) -> String {
    let sections = [
        vec![first_word(Edition::First).to_string()],
        comments(netlist, delay),
        inputs(netlist),
        modules(netlist, delay),
        named("watch", &netlist.outputs),
    ];
    let filled = sections.iter().filter(|lines| !lines.is_empty());
    let sections: Vec<String> = filled.map(|lines| lines.join("\n") + "\n").collect();
    sections.join("\n")
}

const NO_DRIVE: &str =
    "# The netlist has no drive: an input is X until drive lines say what it is.";

const SEVERAL_MODULES: &str =
    "# Where a gate is several modules, the last has its delay, and the nodes before it, named after it, have none.";

const FLIP_FLOPS: &str =
    "# A flip-flop is two memories: it takes what its input had just before clock rises, and shows it a tick after.";

fn comments(netlist: &Netlist, delay: u16) -> Vec<String> {
    let made = format!(
        "# Made from an ISCAS .bench netlist. Each gate has delay {delay} and is X at first."
    );
    let has_several = netlist.parts.iter().any(is_several_modules);
    let several = has_several.then_some(SEVERAL_MODULES);
    let flip_flops = netlist.has_flip_flop().then_some(FLIP_FLOPS);
    let others = [Some(NO_DRIVE), several, flip_flops].into_iter().flatten();
    iter::once(made).chain(others.map(str::to_string)).collect()
}

fn is_several_modules(part: &Part) -> bool {
    part.gate != Gate::FlipFlop && part.gate.modules(part.inputs.len()) > 1
}

/// The netlist's inputs, and after them the clock where flip-flops need it.
fn inputs(netlist: &Netlist) -> Vec<String> {
    let clock = netlist.needs_clock().then_some(CLOCK);
    let inputs: Vec<&str> = netlist.inputs.iter().copied().chain(clock).collect();
    named("input", &inputs)
}

/// A line with a word for each name.
fn named(word: &str, names: &[&str]) -> Vec<String> {
    names.iter().map(|name| format!("{word} {name}")).collect()
}

fn modules(netlist: &Netlist, delay: u16) -> Vec<String> {
    let mut modules = Modules {
        lines: Vec::new(),
        names: Names::new(netlist.names()),
    };
    for part in &netlist.parts {
        modules.part(part, delay);
    }
    modules.lines
}

/// The lines of modules, and the names that the text has by then.
struct Modules {
    lines: Vec<String>,
    names: Names,
}

impl Modules {
    fn part(&mut self, part: &Part, delay: u16) {
        let (output, inputs) = (part.output, part.inputs.as_slice());
        match part.gate {
            Gate::Single(kind) => self.module(output, kind, inputs, delay),
            Gate::Tree(tree) if inputs.len() == 1 => {
                self.module(output, tree.alone, inputs, delay);
            }
            Gate::Tree(tree) => self.tree(output, tree, inputs, delay),
            Gate::FlipFlop => self.flip_flop(output, inputs[0]),
        }
    }

    /// Layer by layer two neighbours are taken together, so that no path is longer than it must be.
    fn tree(&mut self, gate: &str, tree: Tree, inputs: &[&str], delay: u16) {
        let mut number = 1;
        let mut layer: Vec<String> = inputs.iter().map(|input| input.to_string()).collect();
        while layer.len() > tree.last_inputs {
            let pairs = layer.chunks(2);
            layer = pairs
                .map(|pair| self.together(gate, tree.inner, pair, &mut number))
                .collect();
        }
        self.module(gate, tree.last, &layer, delay);
    }

    /// The node that takes two together. One that is left over stays as it is.
    fn together(&mut self, gate: &str, kind: &str, pair: &[String], number: &mut usize) -> String {
        if let [alone] = pair {
            return alone.clone();
        }
        let inner = self.names.made(gate, number, |number| format!(".{number}"));
        self.module(&inner, kind, pair, 0);
        inner
    }

    /// The first memory keeps what the input had at the latest tick at which the clock was 0, and the second
    /// shows that from the tick after the clock is 1.
    fn flip_flop(&mut self, output: &str, input: &str) {
        let ending = |number| match number {
            1 => ".held".to_string(),
            _ => format!(".held.{number}"),
        };
        let held = self.names.made(output, &mut 1, ending);
        self.memory(&held, input, 0, 0);
        self.memory(output, &held, 1, FLIP_FLOP_DELAY);
    }

    fn memory(&mut self, output: &str, input: &str, value: u8, delay: u16) {
        let does = format!("memory({input}, {CLOCK}) set {{{value}}}");
        self.line(output, &does, delay);
    }

    fn module<S: Borrow<str>>(&mut self, output: &str, kind: &str, inputs: &[S], delay: u16) {
        let does = format!("{kind}({})", inputs.join(", "));
        self.line(output, &does, delay);
    }

    fn line(&mut self, output: &str, does: &str, delay: u16) {
        let line = format!("{output} = {does} delay {delay} initial X");
        self.lines.push(line);
    }
}
