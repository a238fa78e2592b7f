//! The most that a sheet has, and one more.

use crate::imported::{mistake, repeated, text};
use crate::ran::card;

/// The netlist is accepted as a card with so many nodes and modules.
fn fits(source: &str, nodes: usize, modules: usize) {
    let card = card(&text(source));
    assert_eq!(card.sheet().check(), Ok(()));
    assert_eq!(card.contents.nodes.len(), nodes);
    assert_eq!(card.contents.modules.len(), modules);
}

fn is(source: &str, expected: &str) {
    assert_eq!(mistake(source.as_bytes()), expected);
}

const NODES: &str = "found node 257, expected at most 256 nodes";

const MODULES: &str = "found module 257, expected at most 256 modules";

/// So many inputs, a line each.
fn inputs(count: usize) -> String {
    repeated(count, |number| format!("INPUT(i{number})"))
}

/// A gate with one node as its input so many times.
fn gate(word: &str, input: &str, count: usize) -> String {
    format!("g = {word}({})\n", vec![input; count].join(","))
}

#[test]
fn nodes() {
    fits(&inputs(256), 256, 0);
    is(&inputs(300), &format!("257:1: {NODES}"));
    // A gate is as many nodes as it is modules.
    let full = inputs(100) + &gate("AND", "i0", 157);
    fits(&full, 256, 156);
    is(&(full + "  INPUT(a)"), &format!("102:3: {NODES}"));
    let one_more = inputs(100) + " " + &gate("NOR", "i0", 158);
    is(&one_more, &format!("101:2: {NODES}"));
    fits(&(inputs(100) + &gate("XNOR", "i0", 156)), 256, 156);
    let one_more = inputs(100) + &gate("XNOR", "i0", 157);
    is(&one_more, &format!("101:1: {NODES}"));
}

/// Two for each flip-flop, and one for the clock that all of them have.
#[test]
fn nodes_of_flip_flops() {
    let flip_flops = "p = DFF(q)\nq = DFF(p)\n";
    fits(&(inputs(251) + flip_flops), 256, 4);
    is(&(inputs(252) + flip_flops), &format!("254:1: {NODES}"));
    is(&(inputs(254) + flip_flops), &format!("255:1: {NODES}"));
    // The netlist's own clock is that one, before the flip-flops or after them.
    let clock = "INPUT(clock)\n";
    fits(&(inputs(251) + clock + flip_flops), 256, 4);
    fits(&(inputs(251) + flip_flops + clock), 256, 4);
    is(
        &(inputs(251) + flip_flops + clock + "INPUT(a)"),
        &format!("255:1: {NODES}"),
    );
}

#[test]
fn modules() {
    let ring = |count| repeated(count, |number| format!("g{number} = NOT(g0)"));
    fits(&ring(256), 256, 256);
    is(&ring(257), &format!("257:1: {MODULES}"));
    fits(&gate("OR", "g", 257), 256, 256);
    is(&gate("OR", "g", 258), &format!("1:1: {MODULES}"));
    is(
        &(ring(1) + &gate("OR", "g", 257)),
        &format!("2:1: {MODULES}"),
    );
    fits(&gate("XNOR", "g", 256), 256, 256);
    is(&gate("XNOR", "g", 257), &format!("1:1: {MODULES}"));
    is(&(ring(255) + "q = DFF(q)"), &format!("256:1: {MODULES}"));
}

#[test]
fn watched_nodes() {
    let outputs = |count| repeated(count, |number| format!("OUTPUT(i{number})"));
    let watched = |source: &str| card(&text(source)).contents.watched.len();
    // Each is named twice.
    let twice = outputs(256) + &inputs(256) + &outputs(256);
    assert_eq!(watched(&twice), 256);
    is(
        &(twice + " OUTPUT(j)"),
        "769:2: found watched node 257, expected at most 256 watched nodes",
    );
}
