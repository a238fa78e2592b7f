//! Each gate, and that it does what its rule says with its whole delay, however many inputs it has.

use generate::Random;
use timing::Level;

use crate::imported::{becomes, repeated, statements, text, text_with};
use crate::ran::{card, cells, drive};

/// The gates that take any count of inputs.
const WORDS: [&str; 6] = ["AND", "OR", "NAND", "NOR", "XOR", "XNOR"];

/// What the rule of a gate gives, over any count of inputs. Z counts as X.
fn rule(word: &str, inputs: &[Level]) -> Level {
    let has = |value| inputs.contains(&value);
    let has_unknown = has(Level::Unknown) || has(Level::None);
    let ones = inputs.iter().filter(|&&value| value == Level::High).count();
    let (is_low, is_high) = match word {
        "AND" | "NAND" => (has(Level::Low), ones == inputs.len()),
        "OR" | "NOR" => (!has_unknown && ones == 0, has(Level::High)),
        _ => (
            !has_unknown && ones.is_multiple_of(2),
            !has_unknown && ones % 2 == 1,
        ),
    };
    let [low, high] = match word {
        "NAND" | "NOR" | "XNOR" => [Level::High, Level::Low],
        _ => [Level::Low, Level::High],
    };
    match (is_low, is_high) {
        (true, _) => low,
        (_, true) => high,
        _ => Level::Unknown,
    }
}

fn input(number: usize) -> String {
    format!("i{number}")
}

/// A netlist of one gate with so many inputs.
fn netlist(word: &str, inputs: usize) -> String {
    let names: Vec<String> = (0..inputs).map(input).collect();
    let declared = repeated(inputs, |number| format!("INPUT({})", input(number)));
    format!(
        "{declared}OUTPUT(out)\nout = {word}({})\n",
        names.join(", ")
    )
}

/// Runs a gate over patterns of its inputs' values, one a tick, and compares every cell of its output.
fn follows_its_rule(word: &str, patterns: &[Vec<Level>], delay: u16) {
    let inputs = patterns[0].len();
    let mut text = text_with(&netlist(word, inputs), delay);
    for number in 0..inputs {
        let values: Vec<Level> = patterns.iter().map(|pattern| pattern[number]).collect();
        text += &drive(&input(number), &values);
    }
    let expected: Vec<Level> = std::iter::repeat_n(Level::Unknown, delay.into())
        .chain(patterns.iter().map(|pattern| rule(word, pattern)))
        .collect();
    let horizon = u32::try_from(expected.len()).expect("it is short");
    let whence = format!("{word} of {inputs} inputs, delay {delay}");
    assert_eq!(cells(&text, "out", horizon), expected, "{whence}");
}

/// Every pattern of the four values over so many inputs.
fn every_pattern(inputs: u32) -> Vec<Vec<Level>> {
    let patterns = 0..4_usize.pow(inputs);
    let value = |pattern: usize, input| Level::ALL[pattern / 4_usize.pow(input) % 4];
    patterns
        .map(|pattern| (0..inputs).map(|input| value(pattern, input)).collect())
        .collect()
}

/// Patterns at random: mostly the value that leaves it to the other inputs, so that all of them count.
fn some_patterns(random: &mut Random, inputs: usize) -> Vec<Vec<Level>> {
    let mut pattern = || {
        let mostly = random.pick(&[Level::Low, Level::High]);
        let value = |random: &mut Random| match random.place(inputs) {
            0 => random.pick(&Level::ALL),
            _ => mostly,
        };
        (0..inputs).map(|_| value(random)).collect()
    };
    (0..100).map(|_| pattern()).collect()
}

#[test]
fn one_to_four_inputs_with_all_values() {
    for inputs in 1..=4 {
        let patterns = every_pattern(inputs);
        for word in WORDS {
            for delay in [0, 1, 7] {
                follows_its_rule(word, &patterns, delay);
            }
        }
    }
}

#[test]
fn more_inputs() {
    let mut random = Random::new(17);
    for inputs in [5, 6, 7, 8, 9] {
        for word in WORDS {
            for delay in [0, 1, 7] {
                follows_its_rule(word, &some_patterns(&mut random, inputs), delay);
            }
        }
    }
}

/// As many inputs as a sheet has room for: 128 of them, and 127 modules.
#[test]
fn many_inputs() {
    let mut random = Random::new(4);
    for word in ["NAND", "XOR"] {
        let mut patterns = some_patterns(&mut random, 128);
        patterns.truncate(8);
        follows_its_rule(word, &patterns, 2);
    }
}

/// The greatest delay that a sheet takes, and one more, which the library refuses.
#[test]
fn the_greatest_delay() {
    follows_its_rule("XNOR", &every_pattern(3), 10_000);
    let longer = card(&text_with(&netlist("XNOR", 3), 10_001));
    let refusal = longer.sheet().check().unwrap_err();
    assert_eq!(refusal.number(), timing::number::DELAY_ABOVE);
}

/// A netlist of one gate over inputs a and b.
fn gate_over_two(statement: &str) -> String {
    format!("INPUT(a)\nINPUT(b)\n{statement}\n")
}

#[test]
fn every_word() {
    for (statement, lines) in [
        (
            "out = AND(a, b)",
            &["out = and(a, b) delay 1 initial X"][..],
        ),
        ("out = OR(a, b)", &["out = or(a, b) delay 1 initial X"]),
        ("out = NAND(a, b)", &["out = nand(a, b) delay 1 initial X"]),
        ("out = NOR(a, b)", &["out = nor(a, b) delay 1 initial X"]),
        ("out = XOR(a, b)", &["out = xor(a, b) delay 1 initial X"]),
        (
            "out = XNOR(a, b)",
            &[
                "out.1 = xor(a, b) delay 0 initial X",
                "out = inverter(out.1) delay 1 initial X",
            ],
        ),
        ("out = NOT(a)", &["out = inverter(a) delay 1 initial X"]),
        ("out = BUF(a)", &["out = buffer(a) delay 1 initial X"]),
        ("out = BUFF(a)", &["out = buffer(a) delay 1 initial X"]),
        ("out = AND(a)", &["out = buffer(a) delay 1 initial X"]),
        ("out = OR(a)", &["out = buffer(a) delay 1 initial X"]),
        ("out = XOR(a)", &["out = buffer(a) delay 1 initial X"]),
        ("out = NAND(a)", &["out = inverter(a) delay 1 initial X"]),
        ("out = NOR(a)", &["out = inverter(a) delay 1 initial X"]),
        ("out = XNOR(a)", &["out = inverter(a) delay 1 initial X"]),
        ("out = NAND(a, a)", &["out = nand(a, a) delay 1 initial X"]),
        (
            "out = NOR(out, b)",
            &["out = nor(out, b) delay 1 initial X"],
        ),
    ] {
        let expected = [&["input a", "input b"], lines].concat();
        becomes(&gate_over_two(statement), &expected);
    }
}

#[test]
fn trees() {
    for (word, inner, last) in [
        ("AND", "and", "and"),
        ("OR", "or", "or"),
        ("NAND", "and", "nand"),
        ("NOR", "or", "nor"),
        ("XOR", "xor", "xor"),
    ] {
        let text = text_with(&netlist(word, 5), 7);
        assert_eq!(
            statements(&text)[5..],
            [
                format!("out.1 = {inner}(i0, i1) delay 0 initial X"),
                format!("out.2 = {inner}(i2, i3) delay 0 initial X"),
                format!("out.3 = {inner}(out.1, out.2) delay 0 initial X"),
                format!("out = {last}(out.3, i4) delay 7 initial X"),
                "watch out".to_string(),
            ]
        );
    }
    let text = text_with(&netlist("XNOR", 3), 7);
    assert_eq!(
        statements(&text)[3..],
        [
            "out.1 = xor(i0, i1) delay 0 initial X",
            "out.2 = xor(out.1, i2) delay 0 initial X",
            "out = inverter(out.2) delay 7 initial X",
            "watch out",
        ]
    );
}

/// A module for each input but the last two, and one more; no path is longer than it must be.
#[test]
fn trees_are_balanced() {
    for (inputs, longest) in [
        (2, 1),
        (3, 2),
        (4, 2),
        (5, 3),
        (8, 3),
        (9, 4),
        (64, 6),
        (65, 7),
    ] {
        let text = text(&netlist("OR", inputs));
        let modules = statements(&text);
        let modules = &modules[inputs..modules.len() - 1];
        assert_eq!(modules.len(), inputs - 1);
        let mut depths: Vec<(&str, usize)> = Vec::new();
        for module in modules {
            let (output, call) = module.split_once(" = or(").expect("a gate");
            let (list, _) = call.split_once(')').expect("a list");
            let known = |name: &str| depths.iter().find(|(output, _)| *output == name);
            let depth = |name| known(name).map_or(0, |&(_, depth)| depth);
            let deepest = list.split(", ").map(depth).max().expect("two inputs");
            depths.push((output, deepest + 1));
        }
        assert_eq!(depths.last(), Some(&("out", longest)), "{inputs} inputs");
    }
}
