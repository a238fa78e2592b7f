//! Document 01's examples that are runs.

use crate::support::*;
use generate::limits::RECORD_BYTES;
use plain::{worked_run, Answer, HIGH, INPUT, LOW, UNKNOWN};

#[test]
fn worked_run_prints_as_stated() {
    let printed = plain::program(&worked_run::INPUT);
    assert_eq!(printed, worked_run::PRINTED.as_bytes());
}

#[test]
fn worked_run_is_read_as_stated() {
    let expected = sheet(
        &[INPUT, UNKNOWN],
        &[gate(NAND, [0, 1], 1, 3)],
        &[(0, 0, 0), (5, 0, 1)],
        &[0, 1],
    );
    assert_eq!(
        plain::read(Edition::First, worked_run::SHEET),
        Ok(expected.clone())
    );
    assert_eq!(expected.encode(Edition::First), worked_run::SHEET);
    assert_eq!(
        plain::check(Edition::First, worked_run::SHEET),
        Answer::Ran { count: 0 }
    );
}

#[test]
fn worked_run_has_the_stated_cells() {
    let sheet = worked_run::sheet();
    let cells = plain::cells(&sheet, worked_run::HORIZON);
    assert_eq!(cells[1][2], UNKNOWN);
    assert_eq!(cells[1][7], HIGH);
    assert_eq!(cells[1][8], LOW);
    assert_eq!(cells[1][11], HIGH);
    assert_eq!(cells[1], [2, 2, 2, 1, 1, 1, 1, 1, 0, 0, 0, 1]);
}

#[test]
fn worked_run_in_60_bytes() {
    let (answer, listing) = run(worked_run::SHEET, worked_run::HORIZON, 60);
    assert_eq!(answer, Answer::Ran { count: 6 });
    assert_eq!(records(&listing), worked_run::RECORDS);
}

#[test]
fn worked_run_in_59_bytes() {
    let (answer, listing) = run(worked_run::SHEET, worked_run::HORIZON, 59);
    assert_eq!(answer.triple(), [19, 11, 5]);
    assert_eq!(records(&listing[..50]), worked_run::RECORDS_BEFORE_11);
    assert_eq!(listing[50..], [UNTOUCHED; 9]);
}

#[test]
fn memory_takes_what_stands_when_its_set_is_met() {
    // Both inputs go from 0 to 1 at tick 4: cell 5 is 1.
    let drive = [(0, 0, 0), (0, 1, 0), (4, 0, 1), (4, 1, 1)];
    let memory = memory(0b0010, [0, 1], 2, 1);
    let sheet = sheet(&[INPUT, INPUT, UNKNOWN], &[memory], &drive, &[2]);
    let cells = plain::cells(
        &plain::read(Edition::First, &sheet.encode(Edition::First)).unwrap(),
        8,
    );
    assert_eq!(cells[2], [2, 2, 2, 2, 2, 1, 1, 1]);
}

#[test]
fn horizon_at_its_limits() {
    let run_to = |horizon| run(worked_run::SHEET, horizon, RECORD_BYTES * 333_335).0;
    assert_eq!(run_to(0).triple(), [1, 0, 0]);
    assert_eq!(run_to(1), Answer::Ran { count: 2 });
    // From tick 8 on the NAND changes every third tick: 333,330 more times up to tick 999,998.
    assert_eq!(run_to(1_000_000), Answer::Ran { count: 333_335 });
    assert_eq!(run_to(1_000_001).triple(), [1, 0, 0]);
    assert_eq!(run_to(u32::MAX).triple(), [1, 0, 0]);
}

#[test]
fn delay_at_its_limit() {
    let delayed_by = |delay| {
        let buffer = gate(BUFFER, [0, 0], 1, delay);
        sheet(&[INPUT, UNKNOWN], &[buffer], &[(0, 0, 1)], &[1])
    };
    assert_eq!(
        listed(&delayed_by(10_000), 10_001),
        [(0, 1, UNKNOWN, 10_000), (10_000, 1, HIGH, 10_001)]
    );
    // The module stands after two counts and two nodes.
    let (answer, _) = run(&delayed_by(10_001).encode(Edition::First), 10_002, 60);
    assert_eq!(answer.triple(), [8, 6, 0]);
}

#[test]
fn inverter_onto_its_own_input() {
    let with_delay = |delay| sheet(&[LOW], &[gate(INVERTER, [0, 0], 0, delay)], &[], &[0]);
    assert_eq!(
        listed(&with_delay(1), 4),
        [(0, 0, 0, 1), (1, 0, 1, 2), (2, 0, 0, 3), (3, 0, 1, 4)]
    );
    let (answer, listing) = run(&with_delay(0).encode(Edition::First), 4, 60);
    assert_eq!(answer.triple(), [18, 0, 0]);
    assert_eq!(listing, [UNTOUCHED; 60]);
}
