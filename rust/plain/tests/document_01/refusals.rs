//! Refusals 1, 19 and 20, and what a refusal leaves in the buffer.

use crate::support::*;
use generate::limits::RECORD_BYTES;
use generate::shared::{four_buffers, toggled};
use plain::{worked_run, Answer, HIGH, LOW};

#[test]
fn pending_4096_passes() {
    let sheet = toggled(&four_buffers());
    let pending = plain::pending(&sheet, &plain::timelines(&sheet, 10_000));
    assert_eq!(pending.iter().max(), Some(&4_096));
    let (answer, _) = run(&sheet.encode(Edition::First), 10_000, 60_000);
    assert_eq!(answer, Answer::Ran { count: 1_024 });
}

#[test]
fn pending_4097_does_not() {
    let mut modules = four_buffers();
    modules.push(constant(HIGH, 5, 5_000));
    let (answer, listing) = run(&toggled(&modules).encode(Edition::First), 10_000, 60_000);
    assert_eq!(answer.triple(), [20, 1_023, 1_024]);
    // The records of the refused tick itself are there.
    let records = written(answer, &listing);
    assert_eq!(records.last(), Some(&(1_023, 0, 0, 1_024)));
}

/// An inverter onto its own input, changing at every tick and so having one change pending, and a
/// buffer after it with as many pending as its delay has ticks.
fn ring_and_buffer(delay: u16) -> Vec<u8> {
    let modules = [gate(INVERTER, [0, 0], 0, 1), gate(BUFFER, [0, 0], 1, delay)];
    sheet(&[LOW, LOW], &modules, &[], &[]).encode(Edition::First)
}

#[test]
fn pending_of_a_long_delay() {
    let answer = |delay, horizon| run(&ring_and_buffer(delay), horizon, 0).0;
    assert_eq!(answer(4_095, 20_000), Answer::Ran { count: 0 });
    assert_eq!(answer(4_096, 20_000).triple(), [20, 4_096, 0]);
}

#[test]
fn pending_ends_at_the_horizon() {
    // The change that would be the 4,097th falls on tick 8,192.
    let answer = |horizon| run(&ring_and_buffer(4_096), horizon, 0).0;
    assert_eq!(answer(8_192), Answer::Ran { count: 0 });
    assert_eq!(answer(8_193).triple(), [20, 4_096, 0]);
}

#[test]
fn zero_delay_leaves_nothing_pending() {
    let buffers: Vec<_> = (1..=5)
        .map(|output| gate(BUFFER, [0, 0], output, 0))
        .collect();
    let sheet = toggled(&buffers);
    let timelines = plain::timelines(&sheet, 2_000);
    assert_eq!(plain::pending(&sheet, &timelines), [0; 2_000]);
}

#[test]
fn full_buffer_comes_before_pending() {
    let mut modules = four_buffers();
    modules.push(constant(HIGH, 5, 5_000));
    let bytes = toggled(&modules).encode(Edition::First);
    // Tick 1,023 meets both conditions; its record is the 1,024th.
    let (answer, _) = run(&bytes, 10_000, RECORD_BYTES * 1_023);
    assert_eq!(answer.triple(), [19, 1_023, 1_023]);
    let (answer, _) = run(&bytes, 10_000, RECORD_BYTES * 1_024);
    assert_eq!(answer.triple(), [20, 1_023, 1_024]);
}

#[test]
fn a_tick_is_listed_whole_or_not_at_all() {
    // Tick 0 has two records: a buffer for one takes none.
    let (answer, listing) = run(worked_run::SHEET, worked_run::HORIZON, 19);
    assert_eq!(answer.triple(), [19, 0, 0]);
    assert_eq!(listing, [UNTOUCHED; 19]);
    let (answer, _) = run(worked_run::SHEET, worked_run::HORIZON, 20);
    assert_eq!(answer.triple(), [19, 3, 2]);
}

#[test]
fn refusals_of_reading_leave_the_buffer_untouched() {
    for length in 0..worked_run::SHEET.len() {
        let (answer, listing) = run(&worked_run::SHEET[..length], 12, 60);
        let [number, _, count] = answer.triple();
        assert_eq!((number, count), (2, 0), "{length} bytes");
        assert_eq!(listing, [UNTOUCHED; 60]);
    }
}

#[test]
fn the_horizon_comes_before_the_sheet() {
    assert_eq!(run(&[], 0, 0).0.triple(), [1, 0, 0]);
    assert_eq!(run(&[], 1_000_001, 0).0.triple(), [1, 0, 0]);
    assert_eq!(run(&[], 1, 0).0.triple(), [2, 0, 0]);
}
