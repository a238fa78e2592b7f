//! Document 01's examples that are runs.

use generate::every;
use generate::sheets::*;
use plain::{worked_run, Edition, HIGH, INPUT, LOW, UNKNOWN};

use crate::agreed::{agreed, listed, listed_in, Outcome};

fn worked(length: usize) -> Outcome {
    let whence = format!("the worked run in {length} bytes");
    agreed(
        Edition::First,
        worked_run::SHEET,
        worked_run::HORIZON,
        length,
        &whence,
    )
}

#[test]
fn worked_run_in_60_bytes() {
    let Outcome { answer, listing } = worked(60);
    assert_eq!(answer, [0, 0, 6]);
    assert_eq!(records(&listing), worked_run::RECORDS);
}

#[test]
fn worked_run_in_59_bytes() {
    let Outcome { answer, listing } = worked(59);
    assert_eq!(answer, [19, 11, 5]);
    assert_eq!(records(&listing), worked_run::RECORDS_BEFORE_11);
}

#[test]
fn a_tick_is_listed_whole_or_not_at_all() {
    // Tick 0 has two records: a buffer for one takes none.
    for (lengths, answer) in [(0..20, [19, 0, 0]), (20..30, [19, 3, 2])] {
        for length in lengths {
            assert_eq!(worked(length).answer, answer, "{length} bytes");
        }
    }
}

#[test]
fn a_memory_takes_what_stands_when_its_set_is_met() {
    // Both inputs go from 0 to 1 at tick 4: cell 5 is 1.
    let drive = [(0, 0, 0), (0, 1, 0), (4, 0, 1), (4, 1, 1)];
    let modules = [memory(0b0010, [0, 1], 2, 1)];
    let sheet = sheet(&[INPUT, INPUT, UNKNOWN], &modules, &drive, &[2]);
    let expected = [(0, 2, UNKNOWN, 5), (5, 2, HIGH, 8)];
    assert_eq!(listed(&sheet, 8, "memory"), expected);
}

#[test]
fn an_inverter_onto_its_own_input() {
    let with_delay = |delay| sheet(&[LOW], &[gate(INVERTER, [0, 0], 0, delay)], &[], &[0]);
    let toggles = [(0, 0, 0, 1), (1, 0, 1, 2), (2, 0, 0, 3), (3, 0, 1, 4)];
    assert_eq!(listed(&with_delay(1), 4, "delay 1"), toggles);
    for edition in Edition::ALL {
        let outcome = agreed(edition, &with_delay(0).encode(edition), 4, 600, "delay 0");
        assert_eq!(outcome.answer, [18, 0, 0]);
    }
}

/// The gates' examples, each as a zero-delay module over two inputs. The clocked inverter's are
/// as document 02's W-202 has them.
#[test]
fn gates_of_values_that_are_not_known() {
    let examples = [
        (NAND, [0, 3], 1),
        (AND, [1, 3], 2),
        (OR, [1, 3], 1),
        (XOR, [2, 2], 2),
        (INVERTER, [3, 0], 2),
        (CLOCKED_INVERTER, [0, 2], 2),
        (CLOCKED_INVERTER, [1, 2], 2),
        (CLOCKED_INVERTER, [0, 3], 2),
        (CLOCKED_INVERTER, [1, 3], 2),
    ];
    for (kind, [first, second], expected) in examples {
        let used = if kind == INVERTER { [0, 0] } else { [0, 1] };
        let modules = [gate(kind, used, 2, 0)];
        let drive = [(0, 0, first), (0, 1, second)];
        let sheet = sheet(&[INPUT, INPUT, LOW], &modules, &drive, &[2]);
        assert_eq!(listed(&sheet, 1, "a gate"), [(0, 2, expected, 1)]);
    }
}

/// What a node's records say of each tick below the horizon.
fn values(records: &[Record], node: u8, horizon: u32) -> Vec<u8> {
    let own = || records.iter().filter(|record| record.1 == node);
    let latest = |tick| own().rfind(|record| record.0 <= tick).expect("tick 0").2;
    (0..horizon).map(latest).collect()
}

/// What a gate of a kind gives for every pair of values, in the second edition for every triple.
fn shown(edition: Edition, kind: u8, delay: u16) -> Vec<u8> {
    let horizon = every::combinations(edition) + u32::from(delay);
    let gates = every::gates(edition, delay);
    let records = listed_in(edition, &gates, horizon, "every value");
    let node = every::output_of(edition, kind);
    values(&records, node, horizon)[delay.into()..].to_vec()
}

fn every_value_at_every_gate(edition: Edition, delay: u16) {
    for kind in every::gate_kinds(edition) {
        let used = gate(kind, [], 0, 0).input_count();
        let rule = |tick| plain::rule(kind, 0, &every::values(edition, tick)[..used]);
        let expected: Vec<u8> = (0..every::combinations(edition)).map(rule).collect();
        let shown = shown(edition, kind, delay);
        assert_eq!(shown, expected, "{edition:?}, kind {kind}, delay {delay}");
    }
}

#[test]
fn every_pair_of_values_at_every_gate() {
    for delay in [0, 1, 5] {
        every_value_at_every_gate(Edition::First, delay);
    }
}

#[test]
fn every_triple_of_values_at_every_gate() {
    for delay in [0, 1, 5] {
        every_value_at_every_gate(Edition::Second, delay);
    }
}

/// The clocked inverter's table as document 02's W-202 has it, and the multiplexer's as W-205 has it: a
/// row for each pair of the first and second input, 0 0, 0 1 and so on, a column for each third.
#[test]
fn tables_written_out() {
    let clocked = [3, 1, 2, 2, 3, 0, 2, 2, 3, 2, 2, 2, 3, 2, 2, 2];
    let multiplexer = [
        [0, 0, 0, 0],
        [0, 1, 2, 2],
        [0, 2, 2, 2],
        [0, 2, 2, 2],
        [1, 0, 2, 2],
        [1, 1, 1, 1],
        [1, 2, 2, 2],
        [1, 2, 2, 2],
        [2, 0, 2, 2],
        [2, 1, 2, 2],
        [2, 2, 2, 2],
        [2, 2, 2, 2],
        [2, 0, 2, 2],
        [2, 1, 2, 2],
        [2, 2, 2, 2],
        [2, 2, 2, 2],
    ];
    for delay in [0, 1, 5] {
        let of_two = shown(Edition::First, CLOCKED_INVERTER, delay);
        assert_eq!(of_two, clocked, "delay {delay}");
        let of_three = shown(Edition::Second, MULTIPLEXER, delay);
        assert_eq!(of_three, multiplexer.as_flattened(), "delay {delay}");
    }
}
