//! Names that stay, and names that are made.

use crate::imported::{becomes, repeated, statements, text};
use crate::ran::card;

/// A name of so many characters.
fn long(first: &str, characters: usize) -> String {
    format!("{first}{}", "n".repeat(characters - first.chars().count()))
}

#[test]
fn signs_in_names() {
    let source =
        "INPUT(bus[0])\nINPUT(top/unit-2/a_1)\nOUTPUT(7.x)\n7.x = NAND(bus[0], top/unit-2/a_1)";
    becomes(
        source,
        &[
            "input bus[0]",
            "input top/unit-2/a_1",
            "7.x = nand(bus[0], top/unit-2/a_1) delay 1 initial X",
            "watch 7.x",
        ],
    );
    assert_eq!(
        card(&text(source)).names,
        ["bus[0]", "top/unit-2/a_1", "7.x"]
    );
}

#[test]
fn letters_of_any_language() {
    becomes(
        "INPUT(Öfen)\nsäule = not(Öfen)",
        &["input Öfen", "säule = inverter(Öfen) delay 1 initial X"],
    );
}

/// Words of .bench files and of texts are names like others.
#[test]
fn words_as_names() {
    let words = [
        "INPUT", "output", "AND", "input", "node", "drive", "watch", "raw", "delay",
    ];
    let mut source = "INPUT(timing-1)\n".to_string();
    for word in words {
        source += &format!("{word} = BUF(timing-1)\nOUTPUT({word})\n");
    }
    let card = card(&text(&source));
    assert_eq!(card.names[0], "timing-1");
    assert_eq!(card.names[1..], words);
    assert_eq!(card.contents.watched.len(), words.len());
}

/// Names that are told apart by their case alone.
#[test]
fn the_case_of_names() {
    becomes(
        "INPUT(a)\nA = NOT(a)",
        &["input a", "A = inverter(a) delay 1 initial X"],
    );
}

/// A netlist has names that would be made, before and after the gates that need others.
#[test]
fn made_names_that_are_taken() {
    let source = "INPUT(a)\ng.2 = BUF(a)\ng = AND(a, a, a, a)\nq.held.2 = NOT(a)\n\
                  q = DFF(a)\ng.1 = BUF(a)\nINPUT(q.held)\ng.4 = XNOR(a, g)\n";
    becomes(
        source,
        &[
            "input a",
            "input q.held",
            "input clock",
            "g.2 = buffer(a) delay 1 initial X",
            "g.3 = and(a, a) delay 0 initial X",
            "g.5 = and(a, a) delay 0 initial X",
            "g = and(g.3, g.5) delay 1 initial X",
            "q.held.2 = inverter(a) delay 1 initial X",
            "q.held.3 = memory(a, clock) set {0} delay 0 initial X",
            "q = memory(q.held.3, clock) set {1} delay 1 initial X",
            "g.1 = buffer(a) delay 1 initial X",
            "g.4.1 = xor(a, g) delay 0 initial X",
            "g.4 = inverter(g.4.1) delay 1 initial X",
        ],
    );
}

/// Names that are made are taken, too: `a.1` has an inner node, and so has `a`.
#[test]
fn made_names_that_meet_each_other() {
    let source = "INPUT(i)\na.1 = XNOR(i, i)\na = AND(i, i, i)\n";
    let text = text(source);
    assert_eq!(
        statements(&text)[1..],
        [
            "a.1.1 = xor(i, i) delay 0 initial X",
            "a.1 = inverter(a.1.1) delay 1 initial X",
            "a.2 = and(i, i) delay 0 initial X",
            "a = and(a.2, i) delay 1 initial X",
        ]
    );
}

/// A made name has at most as many characters as a text takes, and is cut where it would have more.
#[test]
fn long_names() {
    let ofen = long("ö", 64);
    let other = long("ö", 63) + "o";
    let flip_flop = long("q", 60);
    let source =
        format!("INPUT(a)\n{ofen} = OR(a, a, a)\n{other} = NOR(a, a, a)\n{flip_flop} = DFF(a)");
    let cut = long("ö", 62);
    let held = long("q", 59);
    becomes(
        &source,
        &[
            "input a",
            "input clock",
            &format!("{cut}.1 = or(a, a) delay 0 initial X"),
            &format!("{ofen} = or({cut}.1, a) delay 1 initial X"),
            &format!("{cut}.2 = or(a, a) delay 0 initial X"),
            &format!("{other} = nor({cut}.2, a) delay 1 initial X"),
            &format!("{held}.held = memory(a, clock) set {{0}} delay 0 initial X"),
            &format!("{flip_flop} = memory({held}.held, clock) set {{1}} delay 1 initial X"),
        ],
    );
    card(&text(&source));
}

/// As many gates as there is room for whose made names are all cut to the same.
#[test]
fn many_long_names() {
    let stem = long("g", 60);
    let source = "INPUT(a)\n".to_string()
        + &repeated(127, |number| format!("{stem}-{number:03} = AND(a, a, a)"));
    let card = card(&text(&source));
    assert_eq!(card.names.len(), 255);
    assert_eq!(card.sheet().check(), Ok(()));
}
