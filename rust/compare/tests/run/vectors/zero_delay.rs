//! Source document 004, section 3.4 and figure 3: "an and gate and an inverter, both of which have
//! zero delay. The logic equation for the output of this circuit is a AND NOT a, which simplifies
//! to false. Since MARS permits describing such structures it is essential that it simulate them
//! correctly."

use generate::sheets::*;
use plain::{renumbered, HIGH, INPUT, LOW, UNKNOWN};

use crate::agreed::listed;

const A: u8 = 0;
/// The inverter's output.
const B: u8 = 1;
/// The and gate's output.
const D: u8 = 2;
/// A memory that takes a when d is 1.
const CAUGHT: u8 = 3;

/// "If we process the events along the inverter branch first, the output will have a 0 -> 1 -> 0
/// glitch when there is a falling edge at the input. .. A similar situation exists if we chose the
/// other order at the fanout node, and there is a rising edge". Here both edges meet the modules
/// in every order, with the and gate's inputs either way round, and nothing is caught.
#[test]
fn a_and_not_a_shows_no_glitch() {
    // "Let the value of the input a change to 0 at time 1."
    let drive = [(0, A, 1), (1, A, 0), (2, A, 1), (5, A, 0)];
    let expected = [
        (0, A, 1, 1),
        (0, B, 0, 1),
        (0, D, 0, 10),
        (0, CAUGHT, UNKNOWN, 10),
        (1, A, 0, 2),
        (1, B, 1, 2),
        (2, A, 1, 5),
        (2, B, 0, 5),
        (5, A, 0, 10),
        (5, B, 1, 10),
    ];
    let orders = [
        [0, 1, 2],
        [0, 2, 1],
        [1, 0, 2],
        [1, 2, 0],
        [2, 0, 1],
        [2, 1, 0],
    ];
    for inputs in [[A, B], [B, A]] {
        for initial in [LOW, HIGH, UNKNOWN] {
            let modules = [
                gate(INVERTER, [A, 0], B, 0),
                gate(AND, inputs, D, 0),
                memory(0b0010, [A, D], CAUGHT, 0),
            ];
            let nodes = [INPUT, initial, initial, UNKNOWN];
            let circuit = sheet(&nodes, &modules, &drive, &[A, B, D, CAUGHT]);
            for order in orders {
                let sheet = renumbered(&circuit, &[A, B, D, CAUGHT], &order);
                assert_eq!(listed(&sheet, 10, "a AND NOT a"), expected, "{order:?}");
            }
        }
    }
}
