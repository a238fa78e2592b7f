//! The kinds of modules by their names in a text.

use timing::Edition;

/// The kind that has a set of values as its parameter.
pub const MEMORY: u8 = 9;

/// The kind that has a value as its parameter.
pub const CONSTANT: u8 = 0;

/// Each kind's name and how many inputs it has, by its number. Gates of three inputs have the names of those
/// of two: their arguments tell them apart.
const KINDS: [(&str, usize); 16] = [
    ("constant", 0),
    ("buffer", 1),
    ("inverter", 1),
    ("and", 2),
    ("or", 2),
    ("xor", 2),
    ("nand", 2),
    ("nor", 2),
    ("clocked_inverter", 2),
    ("memory", 2),
    ("and", 3),
    ("or", 3),
    ("xor", 3),
    ("nand", 3),
    ("nor", 3),
    ("multiplexer", 3),
];

/// How many of them the first edition has.
const IN_FIRST: usize = 10;

fn of_edition(edition: Edition) -> &'static [(&'static str, usize)] {
    match edition {
        Edition::First => &KINDS[..IN_FIRST],
        Edition::Second => &KINDS,
    }
}

/// The name of a kind that the edition has, and the count of its inputs.
pub fn named(edition: Edition, kind: u8) -> Option<(&'static str, usize)> {
    of_edition(edition).get(usize::from(kind)).copied()
}

/// The kind of a name and a count of inputs, in an edition.
pub fn find(edition: Edition, name: &str, inputs: usize) -> Option<u8> {
    let place = of_edition(edition)
        .iter()
        .position(|&kind| kind == (name, inputs))?;
    u8::try_from(place).ok()
}

/// The counts of inputs that kinds of this name have in an edition.
pub fn input_counts(edition: Edition, name: &str) -> Vec<usize> {
    let kinds = of_edition(edition).iter();
    kinds
        .filter(|&&(known, _)| known == name)
        .map(|&(_, inputs)| inputs)
        .collect()
}

/// The names that an edition has, each once.
pub fn names(edition: Edition) -> Vec<&'static str> {
    let mut names = Vec::new();
    for &(name, _) in of_edition(edition) {
        if !names.contains(&name) {
            names.push(name);
        }
    }
    names
}

/// The greatest parameter that a kind may have.
pub fn greatest_parameter(kind: u8) -> u8 {
    match kind {
        CONSTANT => 3,
        MEMORY => 15,
        _ => 0,
    }
}
