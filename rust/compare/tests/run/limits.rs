//! Every limit of a run, met and passed by one.

use generate::limits::RECORD_BYTES;
use generate::shared::{four_buffers, toggled};
use generate::sheets::*;
use plain::{worked_run, Edition, Sheet, HIGH, INPUT, LOW, UNKNOWN};

use crate::agreed::{agreed, Outcome};

/// A run of a sheet without third inputs, which is the same in every edition.
fn run(sheet: &Sheet, horizon: u32, length: usize) -> Outcome {
    let [first, second] = Edition::ALL.map(|edition| {
        let bytes = sheet.encode(edition);
        agreed(edition, &bytes, horizon, length, "at a limit")
    });
    assert!(first == second, "{sheet:?}");
    first
}

#[test]
fn pending_4096_passes() {
    let sheet = toggled(&four_buffers());
    let pending = plain::pending(&sheet, &plain::timelines(&sheet, 10_000));
    assert_eq!(pending.iter().max(), Some(&4_096));
    assert_eq!(run(&sheet, 10_000, 60_000).answer, [0, 0, 1_024]);
}

#[test]
fn pending_4097_does_not() {
    let mut modules = four_buffers();
    modules.push(constant(HIGH, 5, 5_000));
    let sheet = toggled(&modules);
    let Outcome { answer, listing } = run(&sheet, 10_000, 60_000);
    assert_eq!(answer, [20, 1_023, 1_024]);
    // The records of the refused tick itself are there.
    assert_eq!(records(&listing).last(), Some(&(1_023, 0, 0, 1_024)));
    // The tick meets both conditions where the buffer has no room for its record.
    assert_eq!(
        run(&sheet, 10_000, RECORD_BYTES * 1_024).answer,
        [20, 1_023, 1_024]
    );
    assert_eq!(
        run(&sheet, 10_000, RECORD_BYTES * 1_023).answer,
        [19, 1_023, 1_023]
    );
}

/// An inverter onto its own input, changing at every tick and so having one change pending, and a
/// buffer after it with as many pending as its delay has ticks.
fn ring_and_buffer(delay: u16) -> Sheet {
    let modules = [gate(INVERTER, [0, 0], 0, 1), gate(BUFFER, [0, 0], 1, delay)];
    sheet(&[LOW, LOW], &modules, &[], &[])
}

#[test]
fn pending_of_a_long_delay() {
    assert_eq!(run(&ring_and_buffer(4_095), 20_000, 0).answer, [0, 0, 0]);
    let refused = [20, 4_096, 0];
    assert_eq!(run(&ring_and_buffer(4_096), 20_000, 0).answer, refused);
    assert_eq!(run(&ring_and_buffer(10_000), 20_000, 0).answer, refused);
}

#[test]
fn pending_ends_at_the_horizon() {
    // The change that would be the 4,097th falls on tick 8,192.
    assert_eq!(run(&ring_and_buffer(4_096), 8_192, 0).answer, [0, 0, 0]);
    let refused = [20, 4_096, 0];
    assert_eq!(run(&ring_and_buffer(4_096), 8_193, 0).answer, refused);
}

/// So many buffers of one delay after an inverter onto its own input.
fn star(buffers: u8, delay: u16) -> Sheet {
    let mut modules = vec![gate(INVERTER, [0, 0], 0, 1)];
    modules.extend((1..=buffers).map(|output| gate(BUFFER, [0, 0], output, delay)));
    sheet(&vec![LOW; modules.len()], &modules, &[], &[0])
}

#[test]
fn many_modules_with_changes_pending() {
    // The inverter has a record at each tick.
    let answer = |sheet, horizon| {
        let length = RECORD_BYTES * horizon as usize;
        run(&sheet, horizon, length).answer
    };
    // 255 changes more at each tick: 4,081 after tick 16, 4,336 after tick 17.
    assert_eq!(answer(star(255, 16), 100), [0, 0, 100]);
    assert_eq!(answer(star(255, 17), 100), [20, 17, 18]);
    // 15 times 273 and the inverter's own are 4,096.
    assert_eq!(answer(star(15, 273), 900), [0, 0, 900]);
    assert_eq!(answer(star(15, 274), 900), [20, 274, 275]);
    assert_eq!(answer(star(16, 300), 900), [20, 256, 257]);
}

#[test]
fn the_last_horizon() {
    let length = RECORD_BYTES * 333_335;
    let run_to = |horizon| run(&worked_run::sheet(), horizon, length);
    // From tick 8 on the NAND changes every third tick: 333,330 more times up to tick 999,998.
    let Outcome { answer, listing } = run_to(1_000_000);
    assert_eq!(answer, [0, 0, 333_335]);
    let last = (999_998, 1, 0, 1_000_000);
    assert_eq!(records(&listing).last(), Some(&last));
    assert_eq!(run_to(1_000_001).answer, [1, 0, 0]);
    assert_eq!(run_to(u32::MAX).answer, [1, 0, 0]);
    assert_eq!(run_to(0).answer, [1, 0, 0]);
    assert_eq!(run_to(1).answer, [0, 0, 2]);
}

#[test]
fn the_last_tick_of_the_last_horizon() {
    let drive = [(0, 0, 0), (999_999, 0, 1)];
    let modules = [gate(BUFFER, [0, 0], 1, 0)];
    let sheet = sheet(&[INPUT, UNKNOWN], &modules, &drive, &[0, 1]);
    let Outcome { answer, listing } = run(&sheet, 1_000_000, 600);
    assert_eq!(answer, [0, 0, 4]);
    let expected = [
        (0, 0, 0, 999_999),
        (0, 1, 0, 999_999),
        (999_999, 0, 1, 1_000_000),
        (999_999, 1, 1, 1_000_000),
    ];
    assert_eq!(records(&listing), expected);
    assert_eq!(run(&sheet, 999_999, 600).answer, [0, 0, 2]);
}

/// A memory that follows one oscillator while another is high.
#[test]
fn a_memory_up_to_the_last_horizon() {
    let modules = [
        gate(INVERTER, [0, 0], 0, 1),
        gate(INVERTER, [1, 0], 1, 7),
        memory(0b0010, [0, 1], 2, 3),
    ];
    let sheet = sheet(&[LOW; 3], &modules, &[], &[2]);
    let Outcome { answer, listing } = run(&sheet, 1_000_000, RECORD_BYTES * 1_000_000);
    assert_eq!(answer[0], 0);
    assert!(records(&listing).len() > 400_000);
}

/// So many multiplexers of one delay that choose an oscillator by itself, and so follow it.
fn star_of_multiplexers(multiplexers: u8, delay: u16) -> Sheet {
    let mut modules = vec![gate(INVERTER, [0], 0, 1)];
    modules.extend((1..=multiplexers).map(|output| gate(MULTIPLEXER, [0, 0, 0], output, delay)));
    sheet(&vec![LOW; modules.len()], &modules, &[], &[0])
}

/// As many changes are pending as with buffers.
#[test]
fn multiplexers_with_changes_pending() {
    let answer = |multiplexers, delay, horizon| {
        let sheet = star_of_multiplexers(multiplexers, delay);
        let bytes = sheet.encode(Edition::Second);
        let length = RECORD_BYTES * horizon as usize;
        agreed(Edition::Second, &bytes, horizon, length, "multiplexers").answer
    };
    assert_eq!(answer(255, 16, 100), [0, 0, 100]);
    assert_eq!(answer(255, 17, 100), [20, 17, 18]);
    assert_eq!(answer(15, 273, 900), [0, 0, 900]);
    assert_eq!(answer(15, 274, 900), [20, 274, 275]);
}

#[test]
fn the_longest_delay() {
    let delayed_by = |delay| {
        let modules = [gate(BUFFER, [0, 0], 1, delay)];
        sheet(&[INPUT, UNKNOWN], &modules, &[(0, 0, 1)], &[1])
    };
    let Outcome { answer, listing } = run(&delayed_by(10_000), 10_001, 60);
    assert_eq!(answer, [0, 0, 2]);
    let expected = [(0, 1, UNKNOWN, 10_000), (10_000, 1, HIGH, 10_001)];
    assert_eq!(records(&listing), expected);
    // The change falls on the horizon and is not listed. The value before it ends there as well.
    let Outcome { answer, listing } = run(&delayed_by(10_000), 10_000, 60);
    assert_eq!(answer, [0, 0, 1]);
    assert_eq!(records(&listing), expected[..1]);
    // The module stands after two counts and two nodes.
    assert_eq!(run(&delayed_by(10_001), 10_002, 60).answer, [8, 6, 0]);
}
