//! Sheets with answers worked out by hand: every count and field at its limit and past it, and
//! the order of the refusals.

mod second_edition;
mod several_drivers;

pub use second_edition::start_2;
pub use several_drivers::two_drivers;

use plain::{Edition, Module, Sheet, INPUT};

use crate::sheets::{event, gate};

/// A sheet of an edition, the number, place and count that checking it answers, and those of a strict
/// check.
pub struct Case {
    pub name: &'static str,
    pub edition: Edition,
    pub sheet: Vec<u8>,
    pub answer: [u32; 3],
    pub strict: [u32; 3],
}

impl Case {
    /// A strict check has an answer of its own.
    fn strictly(self, strict: [u32; 3]) -> Case {
        Case { strict, ..self }
    }
}

/// What an accepted sheet is answered.
pub const ACCEPTED: [u32; 3] = [0, 0, 0];

/// The sheet that most cases start from, its records at these places:
/// nodes 2, 3, 4; modules 7, 14; events 23, 29; watched nodes 37, 38; its end 39.
pub fn start() -> Sheet {
    Sheet {
        nodes: vec![INPUT, 0, 2],
        modules: vec![gate(2, [0, 0], 1, 1), gate(6, [0, 1], 2, 3)],
        drive: vec![event(0, 0, 0), event(5, 0, 1)],
        watched: vec![0, 2],
    }
}

pub fn cases() -> Vec<Case> {
    [
        nodes(),
        modules(),
        module_order(),
        drivers(),
        drive(),
        first_events(),
        watched(),
        loops(),
        ends(),
        second_edition::cases(),
        several_drivers::cases(),
    ]
    .into_iter()
    .flatten()
    .collect()
}

/// A case that starts from [`start`].
fn changed(name: &'static str, answer: [u32; 3], change: fn(&mut Sheet)) -> Case {
    let mut sheet = start();
    change(&mut sheet);
    whole(name, answer, sheet)
}

fn whole(name: &'static str, answer: [u32; 3], sheet: Sheet) -> Case {
    bytes(name, answer, sheet.encode(Edition::First))
}

fn bytes(name: &'static str, answer: [u32; 3], sheet: Vec<u8>) -> Case {
    Case {
        name,
        edition: Edition::First,
        sheet,
        answer,
        strict: answer,
    }
}

/// As many inputs, each with its event at tick 0.
fn inputs(nodes: usize) -> Sheet {
    Sheet {
        nodes: vec![INPUT; nodes],
        modules: Vec::new(),
        drive: (0..=u8::MAX)
            .take(nodes)
            .map(|node| event(0, node, 0))
            .collect(),
        watched: Vec::new(),
    }
}

fn nodes() -> Vec<Case> {
    vec![
        changed("as it stands", ACCEPTED, |_| {}),
        whole("no node", [3, 0, 0], inputs(0)),
        whole("1 node", ACCEPTED, inputs(1)),
        whole("256 nodes", ACCEPTED, inputs(256)),
        whole("257 nodes", [3, 0, 0], inputs(257)),
        changed("initial value 3", ACCEPTED, |s| s.nodes[1] = 3),
        changed("node byte 5", [4, 3, 0], |s| s.nodes[1] = 5),
        changed("node byte 255", [4, 2, 0], |s| s.nodes[0] = 255),
        changed("two wrong node bytes", [4, 3, 0], |s| {
            s.nodes[1] = 6;
            s.nodes[2] = 5;
        }),
    ]
}

/// Constants of delay 0 for every one of 256 nodes, and perhaps one more.
fn constants(modules: usize) -> Sheet {
    let outputs = (0..=u8::MAX).cycle().take(modules);
    Sheet {
        nodes: vec![0; 256],
        modules: outputs.map(|node| gate(0, [0, 0], node, 0)).collect(),
        drive: Vec::new(),
        watched: (0..=u8::MAX).collect(),
    }
}

fn modules() -> Vec<Case> {
    vec![
        whole("no module", ACCEPTED, inputs(3)),
        whole("256 modules", ACCEPTED, constants(256)),
        whole("257 modules", [3, 258, 0], constants(257)),
        changed("kind 9", ACCEPTED, |s| s.modules[1].kind = 9),
        changed("kind 10", [5, 14, 0], |s| s.modules[1].kind = 10),
        changed("kind 255", [5, 7, 0], |s| s.modules[0].kind = 255),
        changed("constant 3", ACCEPTED, |s| {
            s.modules[0] = Module {
                parameter: 3,
                ..gate(0, [0, 0], 1, 1)
            }
        }),
        changed("constant 4", [6, 7, 0], |s| {
            s.modules[0] = Module {
                parameter: 4,
                ..gate(0, [0, 0], 1, 1)
            }
        }),
        changed("set 15", ACCEPTED, |s| {
            s.modules[1] = Module {
                parameter: 15,
                ..gate(9, [0, 1], 2, 3)
            }
        }),
        changed("set 16", [6, 14, 0], |s| {
            s.modules[1] = Module {
                parameter: 16,
                ..gate(9, [0, 1], 2, 3)
            }
        }),
        changed("inverter with a parameter", [6, 7, 0], |s| {
            s.modules[0].parameter = 1;
        }),
        changed("NAND with a parameter", [6, 14, 0], |s| {
            s.modules[1].parameter = 1;
        }),
        changed("output past the nodes", [7, 7, 0], |s| {
            s.modules[0].output = 3;
        }),
        changed("first input the last node", ACCEPTED, |s| {
            s.modules[0].first = 2;
        }),
        changed("first input past the nodes", [7, 7, 0], |s| {
            s.modules[0].first = 3;
        }),
        changed("second input the last node", ACCEPTED, |s| {
            s.modules[1].second = 2;
        }),
        changed("second input past the nodes", [7, 14, 0], |s| {
            s.modules[1].second = 3;
        }),
        changed("unused second input", [7, 7, 0], |s| {
            s.modules[0].second = 1;
        }),
        changed("unused first input of a constant", [7, 7, 0], |s| {
            s.modules[0] = gate(0, [1, 0], 1, 1);
        }),
        changed("unused second input of a constant", [7, 7, 0], |s| {
            s.modules[0] = gate(0, [0, 1], 1, 1);
        }),
        changed("delay 10,000", ACCEPTED, |s| s.modules[0].delay = 10_000),
        changed("delay 10,001", [8, 7, 0], |s| s.modules[0].delay = 10_001),
        changed("delay 65,535", [8, 14, 0], |s| s.modules[1].delay = 65_535),
    ]
}

/// One module with every fault, and the same with the faults taken away from the top. That another module
/// drives its output is none.
fn module_order() -> Vec<Case> {
    vec![
        changed("5 before 6 to 8", [5, 14, 0], |s| {
            s.modules[1] = Module {
                parameter: 16,
                ..gate(10, [3, 3], 1, 10_001)
            }
        }),
        changed("6 before 7 and 8", [6, 14, 0], |s| {
            s.modules[1] = Module {
                parameter: 16,
                ..gate(9, [3, 3], 1, 10_001)
            }
        }),
        changed("7 before 8", [7, 14, 0], |s| {
            s.modules[1] = gate(9, [3, 3], 1, 10_001);
        }),
        changed("8 before 10", [8, 14, 0], |s| {
            s.modules[1] = gate(9, [0, 1], 1, 10_001);
        }),
        changed("an earlier record before a lower number", [8, 14, 0], |s| {
            s.modules[1] = gate(9, [0, 1], 2, 10_001);
            s.modules.push(gate(10, [0, 0], 2, 0));
        }),
    ]
}

fn drivers() -> Vec<Case> {
    vec![
        changed("driven node with byte 4", [10, 1, 0], |s| {
            s.nodes[1] = INPUT;
        }),
        changed("undriven node with a value", [10, 0, 0], |s| {
            s.nodes[0] = 3;
        }),
        changed("undriven node after a lost module", [10, 1, 0], |s| {
            s.modules.remove(0);
        }),
        changed("least of several such nodes", [10, 1, 0], |s| {
            s.nodes[1] = INPUT;
            s.nodes[2] = INPUT;
        }),
        changed("10 before 3 of the drive", [10, 1, 0], |s| {
            s.nodes[1] = INPUT;
            s.drive = vec![event(0, 0, 0); 1_025];
        }),
    ]
}

/// Events for one input at the ticks from 0 on.
fn long_drive(events: u32) -> Sheet {
    let mut sheet = start();
    sheet.drive = (0..events).map(|tick| event(tick, 0, 0)).collect();
    sheet
}

fn drive() -> Vec<Case> {
    vec![
        whole("1,024 events", ACCEPTED, long_drive(1_024)),
        whole("1,025 events", [3, 21, 0], long_drive(1_025)),
        changed("tick 999,999", ACCEPTED, |s| s.drive[1].tick = 999_999),
        changed("tick 1,000,000", [11, 29, 0], |s| {
            s.drive[1].tick = 1_000_000;
        }),
        changed("largest tick", [11, 23, 0], |s| s.drive[0].tick = u32::MAX),
        changed("event for a driven node", [12, 29, 0], |s| {
            s.drive[1].node = 1;
        }),
        changed("event for no node", [12, 29, 0], |s| s.drive[1].node = 3),
        changed("event value 3", ACCEPTED, |s| s.drive[1].value = 3),
        changed("event value 4", [13, 29, 0], |s| s.drive[1].value = 4),
        changed("equal events", [14, 29, 0], |s| s.drive[1].tick = 0),
        changed("later event first", [14, 29, 0], |s| s.drive.swap(0, 1)),
        whole("lower node in one tick", [14, 14, 0], {
            let mut sheet = inputs(2);
            sheet.drive.swap(0, 1);
            sheet
        }),
        whole("lower node in a later tick", ACCEPTED, {
            let mut sheet = inputs(2);
            sheet.drive.push(event(1, 0, 1));
            sheet
        }),
        changed("11 before 12 and 13", [11, 29, 0], |s| {
            s.drive[1] = event(1_000_000, 3, 4);
        }),
        changed("12 before 13 and 14", [12, 29, 0], |s| {
            s.drive[1] = event(0, 1, 4);
        }),
        changed("13 before 14", [13, 29, 0], |s| {
            s.drive[1] = event(0, 0, 4);
        }),
    ]
}

/// Inputs that begin late or never: a strict check refuses them after the drive and before the
/// watched count.
fn first_events() -> Vec<Case> {
    vec![
        changed("no event", ACCEPTED, |s| s.drive.clear()).strictly([15, 0, 0]),
        changed("no event at tick 0", ACCEPTED, |s| s.drive[0].tick = 1).strictly([15, 0, 0]),
        whole("least input without an event", ACCEPTED, {
            let mut sheet = inputs(4);
            sheet.drive.remove(3);
            sheet.drive.remove(1);
            sheet
        })
        .strictly([15, 1, 0]),
        whole("the last input begins late", ACCEPTED, {
            let mut sheet = inputs(256);
            sheet.drive[255].tick = 1;
            sheet
        })
        .strictly([15, 255, 0]),
        whole("no input has an event", ACCEPTED, {
            let mut sheet = inputs(3);
            sheet.drive.clear();
            sheet
        })
        .strictly([15, 0, 0]),
        changed("11 before 15", [11, 23, 0], |s| {
            s.drive[0].tick = 1_000_000;
        }),
        changed("12 before 15", [12, 23, 0], |s| s.drive[0].node = 1),
        changed("13 before 15", [13, 29, 0], |s| {
            s.drive[0].tick = 1;
            s.drive[1].value = 4;
        }),
        changed("14 before 15", [14, 29, 0], |s| {
            s.drive[0].tick = 2;
            s.drive[1].tick = 1;
        }),
        cut("2 in the drive before 15", [2, 29, 0], 34, |s| {
            s.drive[0].tick = 1;
        }),
        cut("15 before a missing count", [2, 35, 0], 35, |s| {
            s.drive[0].tick = 1;
        })
        .strictly([15, 0, 0]),
        changed("15 before 3", [3, 35, 0], |s| {
            s.drive[0].tick = 1;
            s.watched = vec![0; 257];
        })
        .strictly([15, 0, 0]),
        changed("15 before 16", [16, 38, 0], |s| {
            s.drive[0].tick = 1;
            s.watched[1] = 3;
        })
        .strictly([15, 0, 0]),
        left_over("15 before 17", [17, 39, 0], |s| s.drive[0].tick = 1).strictly([15, 0, 0]),
        changed("15 before 18", [18, 1, 0], |s| {
            s.drive[0].tick = 1;
            s.modules[0] = gate(2, [1, 0], 1, 0);
        })
        .strictly([15, 0, 0]),
    ]
}

fn watched() -> Vec<Case> {
    vec![
        changed("nothing watched", ACCEPTED, |s| s.watched.clear()),
        changed("everything watched", ACCEPTED, |s| {
            s.watched = vec![0, 1, 2]
        }),
        changed("257 watched", [3, 35, 0], |s| s.watched = vec![0; 257]),
        changed("watched past the nodes", [16, 38, 0], |s| {
            s.watched[1] = 3;
        }),
        changed("watched twice", [16, 38, 0], |s| s.watched[1] = 0),
        changed("watched falling", [16, 38, 0], |s| s.watched.swap(0, 1)),
        changed("first watched past the nodes", [16, 37, 0], |s| {
            s.watched = vec![255, 0];
        }),
    ]
}

/// One input, node 0, and the modules given; every other node is driven.
fn network<const N: usize>(modules: [Module; N]) -> Sheet {
    let mut nodes = vec![0; N + 1];
    nodes[0] = INPUT;
    Sheet {
        nodes,
        modules: modules.to_vec(),
        drive: vec![event(0, 0, 0)],
        watched: Vec::new(),
    }
}

fn loops() -> Vec<Case> {
    vec![
        whole(
            "delay 1 onto its own input",
            ACCEPTED,
            network([gate(2, [1, 0], 1, 1)]),
        ),
        whole(
            "delay 0 onto its own input",
            [18, 1, 0],
            network([gate(2, [1, 0], 1, 0)]),
        ),
        whole(
            "memory onto its data input, with the empty set",
            [18, 1, 0],
            network([gate(9, [1, 0], 1, 0)]),
        ),
        whole(
            "memory onto its control input",
            [18, 1, 0],
            network([gate(9, [0, 1], 1, 0)]),
        ),
        whole(
            "a circle with one delay",
            ACCEPTED,
            network([gate(1, [2, 0], 1, 0), gate(1, [1, 0], 2, 1)]),
        ),
        whole(
            "a circle of two",
            [18, 1, 0],
            network([gate(1, [2, 0], 1, 0), gate(1, [1, 0], 2, 0)]),
        ),
        whole(
            "nodes after a loop are not on it",
            [18, 3, 0],
            network([
                gate(1, [2, 0], 1, 0),
                gate(1, [3, 0], 2, 0),
                gate(3, [3, 0], 3, 0),
            ]),
        ),
        whole(
            "a node between two loops is on neither",
            [18, 2, 0],
            network([
                gate(1, [3, 0], 1, 0),
                gate(4, [2, 1], 2, 0),
                gate(2, [3, 0], 3, 0),
            ]),
        ),
        whole(
            "nodes before a loop are not on it",
            [18, 2, 0],
            network([gate(1, [0, 0], 1, 0), gate(5, [1, 2], 2, 0)]),
        ),
        whole(
            "unused inputs close no loop",
            ACCEPTED,
            Sheet {
                nodes: vec![0, INPUT, 0],
                modules: vec![gate(1, [2, 0], 0, 0), gate(2, [1, 0], 2, 0)],
                drive: vec![event(0, 1, 0)],
                watched: Vec::new(),
            },
        ),
        whole(
            "a constant reads nothing",
            ACCEPTED,
            Sheet {
                nodes: vec![0],
                modules: vec![gate(0, [0, 0], 0, 0)],
                drive: Vec::new(),
                watched: Vec::new(),
            },
        ),
        changed("16 before 18", [16, 38, 0], |s| {
            s.modules[1] = gate(6, [0, 2], 2, 0);
            s.watched[1] = 3;
        }),
        left_over("17 before 18", [17, 39, 0], |s| {
            s.modules[1] = gate(6, [0, 2], 2, 0);
        }),
    ]
}

/// The first `length` bytes of a case that starts from [`start`].
fn cut(name: &'static str, answer: [u32; 3], length: usize, change: fn(&mut Sheet)) -> Case {
    let mut case = changed(name, answer, change);
    case.sheet.truncate(length);
    case
}

/// A case that starts from [`start`], with one byte after it.
fn left_over(name: &'static str, answer: [u32; 3], change: fn(&mut Sheet)) -> Case {
    let mut case = changed(name, answer, change);
    case.sheet.push(0);
    case
}

fn ends() -> Vec<Case> {
    vec![
        cut("no byte", [2, 0, 0], 0, |_| {}),
        cut("half the nodes' count", [2, 0, 0], 1, |_| {}),
        cut("no first node", [2, 2, 0], 2, |_| {}),
        cut("no last node", [2, 4, 0], 4, |_| {}),
        cut("no modules' count", [2, 5, 0], 5, |_| {}),
        cut("half the modules' count", [2, 5, 0], 6, |_| {}),
        cut("no first module", [2, 7, 0], 7, |_| {}),
        cut("most of the first module", [2, 7, 0], 13, |_| {}),
        cut("no last module", [2, 14, 0], 14, |_| {}),
        cut("no drive's count", [2, 21, 0], 21, |_| {}),
        cut("half the drive's count", [2, 21, 0], 22, |_| {}),
        cut("no first event", [2, 23, 0], 23, |_| {}),
        cut("most of the first event", [2, 23, 0], 28, |_| {}),
        cut("no last event", [2, 29, 0], 29, |_| {}),
        cut("no watched count", [2, 35, 0], 35, |_| {}),
        cut("half the watched count", [2, 35, 0], 36, |_| {}),
        cut("no first watched node", [2, 37, 0], 37, |_| {}),
        cut("no last watched node", [2, 38, 0], 38, |_| {}),
        bytes("2 before 3", [2, 0, 0], vec![0xFF]),
        bytes("3 before a missing node", [3, 0, 0], vec![0x01, 0x01]),
        cut("2 before 5", [2, 7, 0], 13, |s| s.modules[0].kind = 10),
        cut("10 before a missing count", [10, 1, 0], 21, |s| {
            s.nodes[1] = INPUT;
        }),
        cut("2 before 11", [2, 29, 0], 34, |s| {
            s.drive[1].tick = 1_000_000;
        }),
        left_over("a byte left over", [17, 39, 0], |_| {}),
    ]
}
