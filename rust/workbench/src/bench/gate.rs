//! The gates of a .bench file, and the modules that they become.

/// What a gate becomes.
#[derive(Debug, Clone, Copy, PartialEq, Eq)]
pub enum Gate {
    /// A module of one input, of this kind.
    Single(&'static str),
    /// One input or more.
    Tree(Tree),
    /// Two memories.
    FlipFlop,
}

/// How modules of two inputs do what a gate of any count does.
#[derive(Debug, Clone, Copy, PartialEq, Eq)]
pub struct Tree {
    /// The kind that takes two nodes together, without delay.
    pub inner: &'static str,
    /// The kind of the last module, which has the gate's delay.
    pub last: &'static str,
    /// How many inputs the last module has.
    pub last_inputs: usize,
    /// The kind of the only module where the gate has one input.
    pub alone: &'static str,
}

const BUFFER: &str = "buffer";
const INVERTER: &str = "inverter";

/// The modules of a flip-flop.
const FLIP_FLOP_MODULES: usize = 2;

const fn tree(inner: &'static str, last: &'static str, alone: &'static str) -> Gate {
    Gate::Tree(Tree {
        inner,
        last,
        last_inputs: 2,
        alone,
    })
}

/// There is no kind for the inverse of xor: an inverter comes after the whole tree.
const XNOR: Gate = Gate::Tree(Tree {
    inner: "xor",
    last: INVERTER,
    last_inputs: 1,
    alone: INVERTER,
});

/// Each gate by its word.
const GATES: [(&str, Gate); 10] = [
    ("AND", tree("and", "and", BUFFER)),
    ("OR", tree("or", "or", BUFFER)),
    ("NAND", tree("and", "nand", INVERTER)),
    ("NOR", tree("or", "nor", INVERTER)),
    ("XOR", tree("xor", "xor", BUFFER)),
    ("XNOR", XNOR),
    ("NOT", Gate::Single(INVERTER)),
    ("BUF", Gate::Single(BUFFER)),
    ("BUFF", Gate::Single(BUFFER)),
    ("DFF", Gate::FlipFlop),
];

impl Gate {
    /// The gate that a word in any case names, with that word as it is written here.
    pub fn named(word: &str) -> Option<(&'static str, Gate)> {
        let mut gates = GATES.into_iter();
        gates.find(|(known, _)| known.eq_ignore_ascii_case(word))
    }

    /// All words, for a message.
    pub fn words() -> String {
        GATES.map(|(word, _)| word).join(", ")
    }

    pub fn takes_several(&self) -> bool {
        matches!(self, Gate::Tree(_))
    }

    /// How many modules it becomes with so many inputs. Each drives a node of its own.
    pub fn modules(&self, inputs: usize) -> usize {
        match self {
            Gate::Single(_) => 1,
            Gate::Tree(_) if inputs == 1 => 1,
            // Each inner module takes two nodes and leaves one.
            Gate::Tree(tree) => inputs - tree.last_inputs + 1,
            Gate::FlipFlop => FLIP_FLOP_MODULES,
        }
    }
}
