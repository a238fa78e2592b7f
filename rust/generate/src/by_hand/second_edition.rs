//! Document 02, W-205: the second edition's records of 8 bytes, the third input in them, and kinds 10
//! to 15.

use plain::{worked_run, Edition, Module, Sheet, INPUT};

use super::{bytes, constants, network, Case, ACCEPTED};
use crate::sheets::*;

/// The sheet that most cases start from, its records at these places: nodes 2 to 5; modules 8, 16;
/// events 26, 32, 38; watched nodes 46, 47; its end 48.
pub fn start_2() -> Sheet {
    Sheet {
        nodes: vec![INPUT, INPUT, 0, 2],
        modules: vec![
            gate(INVERTER, [0], 2, 1),
            gate(MULTIPLEXER, [0, 1, 2], 3, 3),
        ],
        drive: vec![event(0, 0, 0), event(0, 1, 1), event(5, 0, 1)],
        watched: vec![2, 3],
    }
}

pub fn cases() -> Vec<Case> {
    [
        kinds(),
        other_edition(),
        parameters(),
        third_inputs(),
        module_order(),
        other_sections(),
        counts(),
        loops(),
        ends(),
    ]
    .into_iter()
    .flatten()
    .collect()
}

fn of_bytes(name: &'static str, answer: [u32; 3], sheet: Vec<u8>) -> Case {
    Case {
        edition: Edition::Second,
        ..bytes(name, answer, sheet)
    }
}

fn whole(name: &'static str, answer: [u32; 3], sheet: Sheet) -> Case {
    of_bytes(name, answer, sheet.encode(Edition::Second))
}

/// A case that starts from [`start_2`].
fn changed(name: &'static str, answer: [u32; 3], change: fn(&mut Sheet)) -> Case {
    let mut sheet = start_2();
    change(&mut sheet);
    whole(name, answer, sheet)
}

/// The module at byte 16 is this one.
fn with(name: &'static str, answer: [u32; 3], module: Module) -> Case {
    let mut sheet = start_2();
    sheet.modules[1] = module;
    whole(name, answer, sheet)
}

fn kinds() -> Vec<Case> {
    let three = |name, kind| with(name, ACCEPTED, gate(kind, [0, 1, 2], 3, 3));
    let two = |name, kind| with(name, ACCEPTED, gate(kind, [0, 1], 3, 3));
    vec![
        changed("the second edition as it stands", ACCEPTED, |_| {}),
        three("kind 10 in the second edition", 10),
        three("kind 11 in the second edition", 11),
        three("kind 12 in the second edition", 12),
        three("kind 13 in the second edition", 13),
        three("kind 14 in the second edition", 14),
        two("kind 3 in the second edition", 3),
        two("kind 8 in the second edition", 8),
        two("kind 9 in the second edition", 9),
        changed("kind 16", [5, 16, 0], |s| s.modules[1].kind = 16),
        changed("kind 17", [5, 8, 0], |s| s.modules[0].kind = 17),
        changed("kind 255 in the second edition", [5, 16, 0], |s| {
            s.modules[1].kind = 255;
        }),
    ]
}

/// The bytes of one edition, read as the other.
fn other_edition() -> Vec<Case> {
    let first = |name, answer, kind: u8| {
        let mut sheet = start_2();
        sheet.modules[1].kind = kind;
        bytes(name, answer, sheet.encode(Edition::First))
    };
    let eight_bytes = start_2().encode(Edition::Second);
    vec![
        // The modules stand at 8 and 15 there.
        first("kind 9 in the first edition", ACCEPTED, 9),
        first("kind 10 in the first edition", [5, 15, 0], 10),
        first("kind 15 in the first edition", [5, 15, 0], 15),
        first("kind 16 in the first edition", [5, 15, 0], 16),
        // The second record is taken to begin a byte early: a constant 15.
        bytes(
            "records of 8 bytes in the first edition",
            [6, 15, 0],
            eight_bytes,
        ),
        // The low byte of the delay, 3, is taken for the third input of a NAND.
        of_bytes(
            "a record of 7 bytes in the second edition",
            [7, 6, 0],
            worked_run::SHEET.to_vec(),
        ),
    ]
}

fn parameters() -> Vec<Case> {
    let wrong = |name, kind, parameter| {
        let module = Module {
            parameter,
            ..gate(kind, [0, 1, 2], 3, 3)
        };
        with(name, [6, 16, 0], module)
    };
    vec![
        wrong("AND of three with a parameter", AND_3, 1),
        wrong("OR of three with a parameter", OR_3, 255),
        wrong("XOR of three with a parameter", XOR_3, 3),
        wrong("NAND of three with a parameter", NAND_3, 15),
        wrong("NOR of three with a parameter", NOR_3, 16),
        wrong("multiplexer with a parameter", MULTIPLEXER, 1),
        with(
            "set 15 in the second edition",
            ACCEPTED,
            memory(15, [0, 1], 3, 3),
        ),
        with(
            "set 16 in the second edition",
            [6, 16, 0],
            memory(16, [0, 1], 3, 3),
        ),
        with(
            "constant 3 in the second edition",
            ACCEPTED,
            constant(3, 3, 3),
        ),
        with(
            "constant 4 in the second edition",
            [6, 16, 0],
            constant(4, 3, 3),
        ),
    ]
}

fn third_inputs() -> Vec<Case> {
    let inputs = |name, answer, kind, inputs: [u8; 3]| with(name, answer, gate(kind, inputs, 3, 3));
    let wrong = [7, 16, 0];
    vec![
        inputs("third input 0", ACCEPTED, AND_3, [1, 2, 0]),
        inputs("third input the last node", ACCEPTED, OR_3, [0, 1, 3]),
        inputs("third input past the nodes", wrong, OR_3, [0, 1, 4]),
        inputs("third input 255", wrong, MULTIPLEXER, [0, 1, 255]),
        inputs("first of three past the nodes", wrong, XOR_3, [4, 1, 2]),
        inputs("second of three past the nodes", wrong, NOR_3, [0, 4, 2]),
        inputs("unused third input of a NAND", wrong, NAND, [0, 1, 2]),
        inputs(
            "unused third input of a NAND, 255",
            wrong,
            NAND,
            [0, 1, 255],
        ),
        inputs(
            "unused third input of a clocked inverter",
            wrong,
            CLOCKED_INVERTER,
            [0, 1, 1],
        ),
        inputs("unused third input of a memory", wrong, MEMORY, [0, 1, 1]),
        inputs("unused third input of a buffer", wrong, BUFFER, [0, 0, 1]),
        inputs(
            "unused third input of a constant",
            wrong,
            CONSTANT,
            [0, 0, 1],
        ),
        inputs(
            "unused second input in the second edition",
            wrong,
            INVERTER,
            [0, 1, 0],
        ),
        changed("unused third input of the first record", [7, 8, 0], |s| {
            s.modules[0].third = 3;
        }),
    ]
}

/// One module with every fault, and the same with the faults taken away from the top. That another module
/// drives its output is none.
fn module_order() -> Vec<Case> {
    let module = |kind, parameter, third, output, delay| Module {
        parameter,
        ..gate(kind, [0, 1, third], output, delay)
    };
    vec![
        with(
            "5 before 6 to 8 in the second edition",
            [5, 16, 0],
            module(16, 1, 4, 2, 10_001),
        ),
        with(
            "6 before 7 and 8 in the second edition",
            [6, 16, 0],
            module(MULTIPLEXER, 1, 4, 2, 10_001),
        ),
        with(
            "7 before 8 in the second edition",
            [7, 16, 0],
            module(MULTIPLEXER, 0, 4, 2, 10_001),
        ),
        with(
            "7 of an unused third input before 8",
            [7, 16, 0],
            module(NAND, 0, 1, 2, 10_001),
        ),
        with(
            "8 before 10 in the second edition",
            [8, 16, 0],
            module(MULTIPLEXER, 0, 2, 2, 10_001),
        ),
        with(
            "delay 10,000 after a third input",
            ACCEPTED,
            module(MULTIPLEXER, 0, 2, 3, 10_000),
        ),
    ]
}

fn other_sections() -> Vec<Case> {
    vec![
        changed("4 in the second edition", [4, 5, 0], |s| s.nodes[3] = 5),
        changed("10 in the second edition", [10, 3, 0], |s| {
            s.nodes[3] = INPUT;
        }),
        changed("11 in the second edition", [11, 38, 0], |s| {
            s.drive[2].tick = 1_000_000;
        }),
        changed("12 in the second edition", [12, 26, 0], |s| {
            s.drive[0].node = 3;
        }),
        changed("13 in the second edition", [13, 32, 0], |s| {
            s.drive[1].value = 4;
        }),
        changed("14 in the second edition", [14, 38, 0], |s| {
            s.drive[2].tick = 0;
        }),
        changed("15 in the second edition", ACCEPTED, |s| {
            s.drive[1].tick = 1;
        })
        .strictly([15, 1, 0]),
        changed("15 before 16 in the second edition", [16, 47, 0], |s| {
            s.drive[0].tick = 1;
            s.drive.swap(0, 1);
            s.watched[1] = 2;
        })
        .strictly([15, 0, 0]),
        changed("16 in the second edition", [16, 46, 0], |s| {
            s.watched[0] = 4;
        }),
    ]
}

fn counts() -> Vec<Case> {
    vec![
        whole("256 modules of 8 bytes", ACCEPTED, constants(256)),
        whole("257 modules of 8 bytes", [3, 258, 0], constants(257)),
        changed("1,025 events after 8 bytes", [3, 24, 0], |s| {
            s.drive = vec![event(0, 0, 0); 1_025];
        }),
        changed("257 watched after 8 bytes", [3, 44, 0], |s| {
            s.watched = vec![0; 257];
        }),
    ]
}

/// Chains of delay zero that the third input closes.
fn loops() -> Vec<Case> {
    let itself = |name, kind| {
        let by_third = network([gate(kind, [0, 0, 1], 1, 0)]);
        whole(name, [18, 1, 0], by_third)
    };
    vec![
        itself("AND of three onto its third input", AND_3),
        itself("OR of three onto its third input", OR_3),
        itself("XOR of three onto its third input", XOR_3),
        itself("NAND of three onto its third input", NAND_3),
        itself("NOR of three onto its third input", NOR_3),
        itself("multiplexer onto its third input", MULTIPLEXER),
        whole(
            "multiplexer onto its third input, delay 1",
            ACCEPTED,
            network([gate(MULTIPLEXER, [0, 0, 1], 1, 1)]),
        ),
        whole(
            "multiplexer onto its first input",
            [18, 1, 0],
            network([gate(MULTIPLEXER, [1, 0, 0], 1, 0)]),
        ),
        whole(
            "multiplexer onto its second input",
            [18, 1, 0],
            network([gate(MULTIPLEXER, [0, 1, 0], 1, 0)]),
        ),
        whole(
            "a circle of two by third inputs",
            [18, 2, 0],
            network([
                gate(XOR_3, [0, 2, 3], 1, 0),
                gate(AND_3, [0, 0, 3], 2, 0),
                gate(NOR_3, [0, 0, 2], 3, 0),
            ]),
        ),
        whole(
            "a circle by third inputs with one delay",
            ACCEPTED,
            network([gate(AND_3, [0, 0, 2], 1, 0), gate(NOR_3, [0, 0, 1], 2, 1)]),
        ),
        whole(
            "the third input is node 0",
            [18, 0, 0],
            Sheet {
                nodes: vec![0, INPUT],
                modules: vec![gate(OR_3, [1, 1, 0], 0, 0)],
                drive: vec![event(0, 1, 0)],
                watched: Vec::new(),
            },
        ),
        whole(
            "an unused third input closes no loop",
            ACCEPTED,
            Sheet {
                nodes: vec![0, INPUT],
                modules: vec![gate(NAND, [1, 1], 0, 0)],
                drive: vec![event(0, 1, 0)],
                watched: Vec::new(),
            },
        ),
        changed("16 before 18 in the second edition", [16, 47, 0], |s| {
            s.modules[1] = gate(MULTIPLEXER, [0, 1, 3], 3, 0);
            s.watched[1] = 4;
        }),
    ]
}

/// The first bytes of [`start_2`].
fn cut(name: &'static str, place: u32, length: usize) -> Case {
    let mut sheet = start_2().encode(Edition::Second);
    sheet.truncate(length);
    of_bytes(name, [2, place, 0], sheet)
}

/// [`start_2`] with one byte after it.
fn left_over(name: &'static str, change: fn(&mut Sheet)) -> Case {
    let mut case = changed(name, [17, 48, 0], change);
    case.sheet.push(0);
    case
}

fn ends() -> Vec<Case> {
    vec![
        cut("no first record of 8 bytes", 8, 8),
        cut("7 of 8 bytes", 8, 15),
        cut("no second record of 8 bytes", 16, 16),
        cut("6 of 8 bytes", 16, 22),
        cut("7 of 8 bytes, the last record", 16, 23),
        cut("no drive's count after 8 bytes", 24, 24),
        cut("no first event after 8 bytes", 26, 26),
        cut("no last event after 8 bytes", 38, 43),
        cut("no watched count after 8 bytes", 44, 44),
        cut("no last watched node after 8 bytes", 47, 47),
        left_over("a byte left over in the second edition", |_| {}),
        left_over("17 before 18 in the second edition", |s| {
            s.modules[1] = gate(MULTIPLEXER, [0, 1, 3], 3, 0);
        }),
    ]
}
