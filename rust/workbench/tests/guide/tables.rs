//! The tables of the kinds against the plain simulator's rules.

use std::collections::BTreeSet;

use plain::{join, rule, HIGH, LOW, NONE, UNKNOWN};
use timing::Edition;
use workbench::kind;

use crate::page::{text, Page};

/// The values, in the order of a table's rows and columns.
const VALUES: [(&str, u8); 4] = [("0", LOW), ("1", HIGH), ("X", UNKNOWN), ("Z", NONE)];

/// The head of the column that has the input's value for the columns of one input's kinds.
const ONE_INPUT: &str = "a";

/// The kinds of one input and of two that the page has a table of.
const OF_ONE: [&str; 2] = ["buffer", "inverter"];
const OF_TWO: [&str; 8] = [
    "and",
    "or",
    "xor",
    "nand",
    "nor",
    "clocked_inverter",
    "multiplexer",
    "join",
];

const BUFFER: u8 = 1;
const INVERTER: u8 = 2;
const MULTIPLEXER: u8 = 15;

/// An entry of a table: its kind, the inputs' values and the output's.
#[derive(Debug, Clone, PartialEq, Eq, PartialOrd, Ord)]
struct Entry {
    kind: String,
    inputs: Vec<String>,
    output: String,
}

fn is_value(word: &str) -> bool {
    VALUES.iter().any(|&(letter, _)| letter == word)
}

/// The entries of tables that stand side by side. A table of two inputs has the kind and the second input's values
/// in its head, and the first input's value at the front of each row. Kinds of one input are columns behind `a`.
fn entries(tables: &str) -> Vec<Entry> {
    let mut lines = tables
        .lines()
        .map(|line| line.split_whitespace().collect::<Vec<_>>());
    let head = lines.next().unwrap_or_default();
    let mut entries = Vec::new();
    for row in lines {
        let mut front = 0;
        for (place, (&name, &word)) in head.iter().zip(&row).enumerate() {
            let next_is_value = head.get(place + 1).is_some_and(|next| is_value(next));
            if name == ONE_INPUT || (!is_value(name) && next_is_value) {
                front = place;
                continue;
            }
            let (kind, second) = match is_value(name) {
                true => (head[front], Some(name)),
                false => (name, None),
            };
            let inputs = [row[front]].into_iter().chain(second);
            entries.push(Entry {
                kind: kind.to_string(),
                inputs: inputs.map(str::to_string).collect(),
                output: word.to_string(),
            });
        }
    }
    entries
}

/// The entries that there should be.
fn expected() -> Vec<Entry> {
    let mut entries = Vec::new();
    for (first, a) in VALUES {
        for kind in OF_ONE {
            entries.push(entry(kind, &[first], rule(number(kind, 1), 0, &[a])));
        }
        for (second, b) in VALUES {
            for kind in OF_TWO {
                let output = match kind {
                    "join" => join(a, b),
                    "multiplexer" => undecided(a, b),
                    _ => rule(number(kind, 2), 0, &[a, b]),
                };
                entries.push(entry(kind, &[first, second], output));
            }
        }
    }
    entries
}

fn entry(kind: &str, inputs: &[&str], output: u8) -> Entry {
    let letter = VALUES.iter().find(|&&(_, value)| value == output);
    Entry {
        kind: kind.to_string(),
        inputs: inputs.iter().map(|input| input.to_string()).collect(),
        output: letter.expect("it is a value").0.to_string(),
    }
}

fn number(name: &str, inputs: usize) -> u8 {
    kind::find(Edition::First, name, inputs).unwrap_or_else(|| panic!("no kind {name}"))
}

/// A multiplexer whose choice is X or Z.
fn undecided(a: u8, b: u8) -> u8 {
    let output = rule(MULTIPLEXER, 0, &[a, b, UNKNOWN]);
    assert_eq!(rule(MULTIPLEXER, 0, &[a, b, NONE]), output);
    output
}

/// The entries that are wrong, missing or there twice.
pub fn faults(tables: &[String]) -> Vec<String> {
    let found: Vec<Entry> = tables.iter().flat_map(|table| entries(table)).collect();
    let there: BTreeSet<&Entry> = found.iter().collect();
    let expected = expected();
    let expected: BTreeSet<&Entry> = expected.iter().collect();
    let mut faults: Vec<String> = there
        .symmetric_difference(&expected)
        .map(|entry| format!("{entry:?}"))
        .collect();
    if found.len() != expected.len() {
        faults.push(format!("{} entries for {}", found.len(), expected.len()));
    }
    let uneven = tables.iter().filter(|table| !is_even(table));
    faults.extend(uneven.cloned());
    faults
}

/// Whether there is a row for each value, with as many words as the head.
fn is_even(table: &str) -> bool {
    let words: Vec<usize> = table
        .lines()
        .map(|line| line.split_whitespace().count())
        .collect();
    words.len() == 1 + VALUES.len() && words.iter().all(|&count| count == words[0])
}

#[test]
fn the_tables_have_the_rules() {
    let text = text();
    let tables = Page::of(&text).tables;
    assert_eq!(expected().len(), 2 * 4 + 8 * 16);
    assert_eq!(faults(&tables), [""; 0]);
}

/// What the page says of three inputs in words.
#[test]
fn gates_of_three_inputs() {
    let gate = |name: &str, inputs: &[u8]| {
        let kind = kind::find(Edition::Second, name, inputs.len()).expect("it is a kind");
        rule(kind, 0, inputs)
    };
    for (_, a) in VALUES {
        for (_, b) in VALUES {
            for (_, c) in VALUES {
                for name in ["and", "or", "xor"] {
                    let of_two = gate(name, &[gate(name, &[a, b]), c]);
                    assert_eq!(gate(name, &[a, b, c]), of_two, "{name} {a} {b} {c}");
                }
                for (name, inverted) in [("nand", "and"), ("nor", "or")] {
                    let output = rule(INVERTER, 0, &[gate(inverted, &[a, b, c])]);
                    assert_eq!(gate(name, &[a, b, c]), output, "{name} {a} {b} {c}");
                }
            }
            assert_eq!(rule(MULTIPLEXER, 0, &[a, b, LOW]), rule(BUFFER, 0, &[a]));
            assert_eq!(rule(MULTIPLEXER, 0, &[a, b, HIGH]), rule(BUFFER, 0, &[b]));
        }
    }
}

#[test]
fn tables_side_by_side() {
    let found = entries("a  buffer  or  0 Z\n1  0       X   1 Z\n");
    let expected = [
        entry("buffer", &["1"], LOW),
        entry("or", &["X", "0"], HIGH),
        entry("or", &["X", "Z"], NONE),
    ];
    assert_eq!(found, expected);
}
