//! Flip-flops and their clock.

use timing::Level;

use crate::imported::{becomes, mistake, text_with};
use crate::ran::{cells, drive, levels};

/// What a flip-flop of input d shows, and a second one after it.
fn shown(clock: &str, d: &str, delay: u16) -> [Vec<Level>; 2] {
    let netlist = "INPUT(d)\nOUTPUT(q)\nOUTPUT(p)\nq = DFF(d)\np = DFF(q)\n";
    let mut text = text_with(netlist, delay);
    text += &drive("clock", &levels(clock));
    text += &drive("d", &levels(d));
    let horizon = u32::try_from(clock.len()).expect("it is short");
    ["q", "p"].map(|name| cells(&text, name, horizon))
}

/// Clock, d, and what the two show, a letter a tick.
const SHOWN: [[&str; 4]; 4] = [
    // X up to the first rise. What d does otherwise while the clock is low or high is not seen.
    [
        "000111000111000111",
        "001011110110001000",
        "XXXX11111100000011",
        "XXXXXXXXXX11111100",
    ],
    // Where d changes as the clock rises, what it had just before is taken.
    [
        "000111000111000111",
        "000111111000000111",
        "XXXX00000011111100",
        "XXXXXXXXXX00000011",
    ],
    // X and Z are taken as they are.
    [
        "001100110011001100",
        "00111Z1001000X0000",
        "XXX0000ZZZZ1111XXX",
        "XXXXXXX0000ZZZZ111",
    ],
    // A clock that is 1 from the start has not risen, and no more does one that was X.
    [
        "1110001111X11X0111",
        "111110111111101000",
        "XXXXXXX00000000011",
        "XXXXXXXXXXXXXXXX00",
    ],
];

#[test]
fn what_flip_flops_show() {
    for [clock, d, q, p] in SHOWN {
        // The delay is that of gates.
        for delay in [0, 1, 9] {
            let expected = [q, p].map(levels);
            assert_eq!(shown(clock, d, delay), expected, "{clock} {d} {delay}");
        }
    }
}

/// What a flip-flop from node d to node q becomes.
const LINES: [&str; 2] = [
    "q.held = memory(d, clock) set {0} delay 0 initial X",
    "q = memory(q.held, clock) set {1} delay 1 initial X",
];

#[test]
fn a_clock_of_its_own() {
    becomes(
        "q = DFF(d)\nINPUT(d)\nINPUT(e)\n",
        &["input d", "input e", "input clock", LINES[0], LINES[1]],
    );
}

#[test]
fn a_clock_that_the_netlist_has() {
    let [held, shows] = LINES;
    becomes(
        "INPUT(clock)\nINPUT(d)\nq = DFF(d)\n",
        &["input clock", "input d", held, shows],
    );
    becomes(
        "q = DFF(d)\nINPUT(clock)\nd = NOT(clock)\nOUTPUT(clock)",
        &[
            "input clock",
            held,
            shows,
            "d = inverter(clock) delay 1 initial X",
            "watch clock",
        ],
    );
    // The name is the one in small letters alone.
    becomes(
        "INPUT(CLOCK)\nINPUT(d)\nq = DFF(d)",
        &["input CLOCK", "input d", "input clock", held, shows],
    );
}

#[test]
fn no_flip_flop_no_clock() {
    becomes(
        "INPUT(a)\nclock = NOT(a)",
        &["input a", "clock = inverter(a) delay 1 initial X"],
    );
}

#[test]
fn a_clock_that_a_gate_drives() {
    let expected =
        "found `clock` with a gate, expected an input, since flip-flops have it as their clock";
    for (source, place) in [
        ("INPUT(d)\n clock = NOT(d)\nq = DFF(d)", "2:2"),
        ("INPUT(d)\nq = DFF(d)\nclock = NOT(d)\n", "3:1"),
        ("clock = DFF(clock)", "1:1"),
    ] {
        assert_eq!(mistake(source.as_bytes()), format!("{place}: {expected}"));
    }
}

/// A clock that only the text would have is no name of the netlist.
#[test]
fn a_clock_that_is_used_and_not_there() {
    let expected =
        "found `clock`, which no statement defines, expected an input or a gate of the netlist";
    for (source, place) in [
        ("INPUT(d)\nq = DFF(d)\ne = AND(d, clock)", "3:12"),
        ("INPUT(d)\nq = DFF(d)\nOUTPUT(clock)", "3:8"),
    ] {
        assert_eq!(mistake(source.as_bytes()), format!("{place}: {expected}"));
    }
}
