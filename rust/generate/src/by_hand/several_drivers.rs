//! Document 02, W-209: several modules may drive a node. Refusal 9 is not given, 10 asks for one driver or
//! more, and a zero-delay loop may go through any of a node's drivers.

use plain::{Edition, Module, Sheet, INPUT};

use super::{bytes, start, Case, ACCEPTED};
use crate::sheets::*;

/// [`start`] with a clocked inverter that drives node 1 as well.
pub fn two_drivers() -> Sheet {
    let mut sheet = start();
    sheet.modules.push(gate(CLOCKED_INVERTER, [2, 0], 1, 2));
    sheet
}

pub fn cases() -> Vec<Case> {
    [driven_twice(), driven_or_not(), loops()]
        .into_iter()
        .flatten()
        .flat_map(in_every_edition)
        .collect()
}

/// A sheet without third inputs, and what checking it answers in every edition. No place is a byte past a
/// module.
struct Whole {
    name: &'static str,
    answer: [u32; 3],
    sheet: Sheet,
}

fn in_every_edition(whole: Whole) -> [Case; 2] {
    Edition::ALL.map(|edition| Case {
        edition,
        ..bytes(whole.name, whole.answer, whole.sheet.encode(edition))
    })
}

/// A case that starts from [`start`], where node 1 is driven by the first module, node 2 by the second.
fn changed(name: &'static str, answer: [u32; 3], change: fn(&mut Sheet)) -> Whole {
    let mut sheet = start();
    change(&mut sheet);
    Whole {
        name,
        answer,
        sheet,
    }
}

/// Node 0 is an input, and all others are driven.
fn wired(name: &'static str, answer: [u32; 3], nodes: usize, modules: &[Module]) -> Whole {
    let mut bytes = vec![0; nodes];
    bytes[0] = INPUT;
    Whole {
        name,
        answer,
        sheet: sheet(&bytes, modules, &[(0, 0, 0)], &[]),
    }
}

fn driven_twice() -> Vec<Whole> {
    vec![
        changed("two drivers", ACCEPTED, |s| {
            s.modules.push(gate(NAND, [0, 2], 1, 4));
        }),
        changed("two drivers, one after the other", ACCEPTED, |s| {
            s.modules.insert(1, gate(BUFFER, [2], 1, 0));
        }),
        changed("two equal records", ACCEPTED, |s| {
            s.modules.push(s.modules[0]);
        }),
        changed("three drivers, of every delay", ACCEPTED, |s| {
            s.modules.push(gate(BUFFER, [0], 1, 0));
            s.modules.push(gate(BUFFER, [0], 1, 10_000));
        }),
        changed("every node has two drivers", ACCEPTED, |s| {
            s.modules.push(constant(3, 1, 0));
            s.modules.push(memory(15, [0, 1], 2, 0));
        }),
        wired(
            "256 drivers",
            ACCEPTED,
            2,
            &[gate(CLOCKED_INVERTER, [0, 0], 1, 1); 256],
        ),
        wired(
            "257 drivers",
            [3, 4, 0],
            2,
            &[gate(CLOCKED_INVERTER, [0, 0], 1, 1); 257],
        ),
        wired(
            "256 modules and an input",
            ACCEPTED,
            256,
            &(1..=255)
                .chain([255])
                .map(|node| gate(BUFFER, [0], node, 1))
                .collect::<Vec<_>>(),
        ),
    ]
}

fn driven_or_not() -> Vec<Whole> {
    vec![
        changed("driven twice with byte 4", [10, 1, 0], |s| {
            s.nodes[1] = INPUT;
            s.modules.push(gate(BUFFER, [0], 1, 1));
        }),
        changed("the other's output is driven twice", [10, 2, 0], |s| {
            s.modules[1].output = 1;
        }),
        changed("an input beside a node driven twice", ACCEPTED, |s| {
            s.modules[1].output = 1;
            s.nodes[2] = INPUT;
            s.drive.insert(1, event(0, 2, 1));
        }),
        changed("driven twice, then an undriven node", [10, 2, 0], |s| {
            s.modules = vec![gate(BUFFER, [0], 1, 1); 3];
        }),
    ]
}

/// Buffers without delay but where one is given.
fn loops() -> Vec<Whole> {
    let link = |from: u8, to: u8| gate(BUFFER, [from], to, 0);
    let delayed = |from: u8, to: u8| gate(BUFFER, [from], to, 1);
    vec![
        wired(
            "two drivers without delay and no loop",
            ACCEPTED,
            3,
            &[link(0, 1), link(0, 1), link(1, 2), link(1, 2)],
        ),
        wired(
            "the second of two drivers onto its own input",
            [18, 1, 0],
            2,
            &[link(0, 1), link(1, 1)],
        ),
        wired(
            "the first of two drivers onto its own input",
            [18, 1, 0],
            2,
            &[link(1, 1), link(0, 1)],
        ),
        wired(
            "a delayed driver onto its own input beside one without delay",
            ACCEPTED,
            2,
            &[link(0, 1), delayed(1, 1)],
        ),
        wired(
            "a driver without delay onto its own input beside a delayed one",
            [18, 1, 0],
            2,
            &[delayed(0, 1), link(1, 1)],
        ),
        wired(
            "a circle by the second drivers",
            [18, 1, 0],
            3,
            &[link(0, 1), link(0, 2), link(2, 1), link(1, 2)],
        ),
        wired(
            "a circle by the first driver of one and the second of the other",
            [18, 2, 0],
            4,
            &[link(0, 1), link(3, 2), link(0, 3), link(2, 3)],
        ),
        wired(
            "a circle whose way back is delayed, beside a driver without delay",
            ACCEPTED,
            3,
            &[link(0, 1), delayed(2, 1), link(1, 2)],
        ),
        wired(
            "the same with both ways delayed",
            ACCEPTED,
            3,
            &[link(0, 1), delayed(2, 1), link(0, 2), delayed(1, 2)],
        ),
        wired(
            "nodes after a shared node on a loop are not on it",
            [18, 2, 0],
            4,
            &[link(2, 1), link(0, 2), link(3, 2), link(2, 3)],
        ),
        wired(
            "two circles through one node",
            [18, 1, 0],
            4,
            &[link(2, 1), link(3, 1), link(1, 2), link(1, 3)],
        ),
    ]
}
