//! Document 02, W-205: the generator program prints the constant table of the code, whole, and every
//! entry is what its kind's rule says.

use std::fmt;
use std::fs;
use std::process::Command;

use compare::{repository, table_generator};
use plain::{HIGH, LOW, NONE, UNKNOWN};

/// Where the table stands in the code.
const FILE: &str = "crates/level/src/tables.rt";

/// The kinds that have a table, in its order, each with its name and how many inputs it has.
const KINDS: [(u8, &str, usize); 14] = [
    (1, "buffer", 1),
    (2, "inverter", 1),
    (3, "AND", 2),
    (4, "OR", 2),
    (5, "XOR", 2),
    (6, "NAND", 2),
    (7, "NOR", 2),
    (8, "clocked inverter", 2),
    (10, "AND", 3),
    (11, "OR", 3),
    (12, "XOR", 3),
    (13, "NAND", 3),
    (14, "NOR", 3),
    (15, "multiplexer", 3),
];

fn table() -> String {
    fs::read_to_string(repository().join(FILE)).unwrap_or_else(|error| panic!("{FILE}: {error}"))
}

/// What the generator prints.
fn printed() -> String {
    let program = table_generator();
    let output = Command::new(&program)
        .output()
        .unwrap_or_else(|error| panic!("{}: {error}", program.display()));
    assert!(output.status.success(), "{:?}", output.status);
    assert!(output.stderr.is_empty(), "it says something");
    String::from_utf8(output.stdout).expect("it prints text")
}

/// The two lines that the generator prints for what the table uses, and the one that the layout makes of them.
const USES: [&str; 2] = [
    "use crate::Level;\nuse crate::TABLE_ENTRIES;\n",
    "use crate::{Level, TABLE_ENTRIES};\n",
];

#[test]
fn the_generator_prints_the_table() {
    let (printed, table) = (printed(), table());
    assert_eq!(printed.matches(USES[0]).count(), 1);
    let printed = printed.replace(USES[0], USES[1]);
    let lines = printed.lines().zip(table.lines());
    for (number, (printed, kept)) in (1..).zip(lines) {
        assert_eq!(printed, kept, "printed, then kept: line {number} of {FILE}");
    }
    // No line more, and the last one ends.
    assert!(printed == table, "the ends differ");
}

/// An entry: the value that it has, the name of its gate and the inputs' values.
#[derive(PartialEq, Eq)]
struct Entry {
    value: u8,
    gate: String,
    inputs: Vec<u8>,
}

/// As the table writes it, so that a wrong one is seen at once.
impl fmt::Debug for Entry {
    fn fmt(&self, f: &mut fmt::Formatter) -> fmt::Result {
        let symbol = |&value: &u8| ["0", "1", "X", "Z"][usize::from(value)];
        let inputs: Vec<&str> = self.inputs.iter().map(symbol).collect();
        let Entry { value, gate, .. } = self;
        write!(f, "{gate}({}) is {}", inputs.join(", "), symbol(value))
    }
}

/// The entry of a line "Level::LOW, // AND(0, 1, X)"; other lines have none.
fn entry(line: &str) -> Option<Entry> {
    let (level, comment) = line.trim().strip_prefix("Level::")?.split_once(", // ")?;
    let (gate, inputs) = comment.strip_suffix(')')?.split_once('(')?;
    let value = |name| match name {
        "LOW" | "0" => LOW,
        "HIGH" | "1" => HIGH,
        "UNKNOWN" | "X" => UNKNOWN,
        "NONE" | "Z" => NONE,
        _ => panic!("{name} is no value: {line}"),
    };
    Some(Entry {
        value: value(level),
        gate: gate.to_string(),
        inputs: inputs.split(", ").map(value).collect(),
    })
}

/// Every list of so many values. The first counts most.
fn every_inputs(count: usize) -> Vec<Vec<u8>> {
    let places = 0..4_usize.pow(count as u32);
    let digit = |place: usize, at: usize| (place / 4_usize.pow(at as u32) % 4) as u8;
    places
        .map(|place| (0..count).rev().map(|at| digit(place, at)).collect())
        .collect()
}

/// The table's entries with the values that this test computes.
fn expected() -> Vec<Entry> {
    let of_kind = |(kind, gate, count): (u8, &str, usize)| {
        let entry = |inputs: Vec<u8>| Entry {
            value: computed(kind, &inputs),
            gate: gate.to_string(),
            inputs,
        };
        every_inputs(count)
            .into_iter()
            .map(entry)
            .collect::<Vec<_>>()
    };
    KINDS.into_iter().flat_map(of_kind).collect()
}

/// How many inputs are 0, how many 1, and how many neither.
struct Counted {
    zeros: usize,
    ones: usize,
    unknowns: usize,
}

fn counted(inputs: &[u8]) -> Counted {
    let count = |value| inputs.iter().filter(|&&input| input == value).count();
    let (zeros, ones) = (count(LOW), count(HIGH));
    Counted {
        zeros,
        ones,
        unknowns: inputs.len() - zeros - ones,
    }
}

/// A value computed from counts, and for the last two kinds from what is chosen.
fn computed(kind: u8, inputs: &[u8]) -> u8 {
    let Counted {
        zeros,
        ones,
        unknowns,
    } = counted(inputs);
    let known = |is_high: bool| u8::from(is_high);
    match kind {
        1 | 2 | 5 | 12 if unknowns > 0 => UNKNOWN,
        1 | 5 | 12 => known(ones == 1 || ones == 3),
        2 => known(ones == 0),
        3 | 10 if zeros == 0 && unknowns > 0 => UNKNOWN,
        3 | 10 => known(zeros == 0),
        6 | 13 if zeros == 0 && unknowns > 0 => UNKNOWN,
        6 | 13 => known(zeros > 0),
        4 | 11 if ones == 0 && unknowns > 0 => UNKNOWN,
        4 | 11 => known(ones > 0),
        7 | 14 if ones == 0 && unknowns > 0 => UNKNOWN,
        7 | 14 => known(ones == 0),
        8 if inputs[1] == LOW => NONE,
        8 if inputs[1] == HIGH => computed(2, &inputs[..1]),
        8 => UNKNOWN,
        15 => {
            // Those that may be the chosen one.
            let chosen = match inputs[2] {
                LOW => &inputs[..1],
                HIGH => &inputs[1..2],
                _ => &inputs[..2],
            };
            let Counted { zeros, ones, .. } = counted(chosen);
            match chosen.len() {
                all if zeros == all => LOW,
                all if ones == all => HIGH,
                _ => UNKNOWN,
            }
        }
        _ => panic!("kind {kind} has no table"),
    }
}

/// 4 entries for each kind of one input, 16 for two and 64 for three, in order, none missing and none
/// more.
#[test]
fn every_entry_is_its_rule() {
    let table = table();
    let found: Vec<Entry> = table.lines().filter_map(entry).collect();
    let expected = expected();
    assert_eq!(expected.len(), 488);
    for (place, (found, expected)) in found.iter().zip(&expected).enumerate() {
        assert_eq!(found, expected, "kept, then computed: entry {place}");
    }
    assert_eq!(found.len(), 488);
}

/// Every line that names a value is an entry of the form above.
#[test]
fn no_value_stands_elsewhere() {
    for line in table().lines().filter(|line| line.contains("Level::")) {
        let is_code = !line.trim_start().starts_with("//");
        let is_entry = entry(line).is_some();
        assert!(!is_code || is_entry, "no entry: {line}");
    }
}

#[test]
fn an_entry_is_read() {
    let read = entry("    Level::UNKNOWN, // clocked inverter(Z, 1)").expect("it is one");
    assert_eq!(format!("{read:?}"), "clocked inverter(Z, 1) is X");
    let lines = [
        "",
        "];",
        "// AND(0, 1)",
        "use Level;",
        "const T: [Level; 488] = [",
    ];
    assert!(lines.iter().all(|line| entry(line).is_none()));
}

#[test]
fn the_plain_rule_is_the_same() {
    for (kind, gate, count) in KINDS {
        for inputs in every_inputs(count) {
            let value = plain::rule(kind, 0, &inputs);
            assert_eq!(value, computed(kind, &inputs), "{gate} of {inputs:?}");
        }
    }
}
