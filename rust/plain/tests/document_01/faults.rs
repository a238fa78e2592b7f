//! Document 01's "Faults seen in such simulators", none of which is to be seen here.

use crate::support::*;
use generate::shared::memory_after_gates;
use plain::{renumbered, HIGH, INPUT, LOW, UNKNOWN};

#[test]
fn both_changes_of_a_tick_count() {
    // One input rises and the other falls at tick 4; taking either change alone gives a pulse.
    let drive = [(0, 0, 0), (0, 1, 1), (4, 0, 1), (4, 1, 0)];
    let xor = gate(XOR, [0, 1], 2, 2);
    let steady = sheet(&[INPUT, INPUT, HIGH], &[xor], &drive, &[2]);
    assert_eq!(listed(&steady, 10), [(0, 2, 1, 10)]);
}

#[test]
fn a_fall_after_a_pending_rise_is_not_lost() {
    // Buffer, delay 10, input high from tick 5 to 7.
    let drive = [(0, 0, 0), (5, 0, 1), (7, 0, 0)];
    let pulse = sheet(&[INPUT, LOW], &[gate(BUFFER, [0, 0], 1, 10)], &drive, &[1]);
    let expected = [(0, 1, 0, 15), (15, 1, 1, 17), (17, 1, 0, 30)];
    assert_eq!(listed(&pulse, 30), expected);
}

#[test]
fn every_pulse_passes_every_delay() {
    let drive = [(0, 0, 0), (3, 0, 1), (4, 0, 0), (5, 0, 1), (6, 0, 0)];
    for delay in 0..20 {
        let buffer = gate(BUFFER, [0, 0], 1, delay);
        let pulses = sheet(&[INPUT, LOW], &[buffer], &drive, &[1]);
        let tick = u32::from(delay);
        let expected = [
            (0, 1, 0, tick + 3),
            (tick + 3, 1, 1, tick + 4),
            (tick + 4, 1, 0, tick + 5),
            (tick + 5, 1, 1, tick + 6),
            (tick + 6, 1, 0, 40),
        ];
        assert_eq!(listed(&pulses, 40), expected, "delay {delay}");
    }
}

#[test]
fn a_constant_shows_after_its_delay() {
    let constant = sheet(&[UNKNOWN], &[constant(HIGH, 0, 4)], &[], &[0]);
    assert_eq!(listed(&constant, 8), [(0, 0, 2, 4), (4, 0, 1, 8)]);
    assert_eq!(listed(&constant, 4), [(0, 0, 2, 4)]);
}

#[test]
fn a_memory_catches_nothing_inside_a_tick() {
    let expected = [
        (0, 1, 0, 4),
        (0, 2, 0, 12),
        (0, 3, 2, 12),
        (4, 1, 1, 8),
        (8, 1, 0, 12),
    ];
    let sheet = memory_after_gates(&[1, 2, 3]);
    assert_eq!(listed(&sheet, 12), expected);
    let reversed = renumbered(&sheet, &[0, 1, 2, 3], &[2, 1, 0]);
    assert_eq!(listed(&reversed, 12), expected);
}
