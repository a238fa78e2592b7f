//! Document 01's "Faults seen in such simulators", and faults with nodes that have several drivers: for
//! each a sheet on which a simulator with the fault goes wrong, and the proved library does not.

use generate::drivers_by_hand;
use generate::ends::ended;
use generate::ends_by_hand::Case;
use generate::shared::memory_after_gates;
use generate::sheets::*;
use generate::{room_for_all, Generator, RunInput};
use plain::{read, renumbered, Edition, Module, Sheet, HIGH, INPUT, LOW, NONE, UNKNOWN};

use crate::agreed::{agreed, listed, plain};
use crate::event_driven::{run, Fault, Outcome, FAULTS};

const HORIZON: u32 = 30;

/// Asserts that the library, the plain simulator and one without faults list what is right, and
/// the one with the fault what is wrong, each change with its end.
fn shown(fault: Fault, sheet: &Sheet, right: &[Change], wrong: &[Change]) {
    let [right, wrong] = [right, wrong].map(|changes| ended(changes, HORIZON));
    assert_eq!(listed(sheet, HORIZON, "a fault"), right, "the library");
    assert_eq!(simulated(sheet, None), right, "without a fault");
    assert_ne!(right, wrong);
    assert_eq!(simulated(sheet, Some(fault)), wrong, "{fault:?}");
}

fn simulated(sheet: &Sheet, fault: Option<Fault>) -> Vec<Record> {
    run(sheet, HORIZON, fault).records
}

#[test]
fn a_module_is_settled_at_the_first_change_in_a_tick() {
    // One input rises and the other falls at tick 4; the second change is dropped.
    let drive = [(0, 0, 0), (0, 1, 1), (4, 0, 1), (4, 1, 0)];
    let modules = [gate(XOR, [0, 1], 2, 2)];
    let steady = sheet(&[INPUT, INPUT, HIGH], &modules, &drive, &[2]);
    let wrong = [(0, 2, 1), (6, 2, 0)];
    shown(Fault::FirstChange, &steady, &[(0, 2, 1)], &wrong);
}

/// Buffer, delay 10, input high from tick 5 to 7.
fn short_pulse() -> Sheet {
    let drive = [(0, 0, 0), (5, 0, 1), (7, 0, 0)];
    let modules = [gate(BUFFER, [0, 0], 1, 10)];
    sheet(&[INPUT, LOW], &modules, &drive, &[1])
}

const SHORT_PULSE: [Change; 3] = [(0, 1, 0), (15, 1, 1), (17, 1, 0)];

#[test]
fn a_new_result_is_compared_with_the_present_value() {
    // The fall is lost and the output stays 1.
    let wrong = &SHORT_PULSE[..2];
    shown(Fault::PresentValue, &short_pulse(), &SHORT_PULSE, wrong);
}

#[test]
fn short_pulses_are_swallowed() {
    // The rise is dropped when the fall is scheduled.
    let wrong = &SHORT_PULSE[..1];
    shown(Fault::Swallowed, &short_pulse(), &SHORT_PULSE, wrong);
}

#[test]
fn only_modules_with_a_changed_input_are_worked_at_tick_0() {
    // A constant of delay 4 never shows.
    let modules = [constant(HIGH, 0, 4)];
    let constant = sheet(&[UNKNOWN], &modules, &[], &[0]);
    let right = [(0, 0, 2), (4, 0, 1)];
    shown(Fault::QuietStart, &constant, &right, &right[..1]);
}

#[test]
fn a_memory_catches_a_passing_value_inside_a_tick() {
    let as_listed = memory_after_gates(&[2, 3]);
    let right = [(0, 2, 0), (0, 3, 2)];
    // The passing value is caught at both edges and never listed itself.
    let wrong = [(0, 2, 0), (0, 3, 2), (4, 3, 1), (8, 3, 0)];
    shown(Fault::PassingValue, &as_listed, &right, &wrong);
    // The same modules reversed: there the fault does not show.
    let reversed = renumbered(&as_listed, &[0, 1, 2, 3], &[2, 1, 0]);
    let right = ended(&right, HORIZON);
    assert_eq!(listed(&reversed, HORIZON, "reversed"), right);
    assert_eq!(simulated(&reversed, Some(Fault::PassingValue)), right);
}

/// An input that is low, then high from tick 5 on, and node 1 with these drivers.
fn bus(drivers: &[Module]) -> Sheet {
    let drive = [(0, 0, LOW), (5, 0, HIGH)];
    sheet(&[INPUT, NONE], drivers, &drive, &[1])
}

#[test]
fn z_wins_over_a_value() {
    let drivers = [gate(BUFFER, [0], 1, 2), constant(NONE, 1, 0)];
    let right = [(0, 1, 3), (2, 1, 0), (7, 1, 1)];
    shown(Fault::NoneWins, &bus(&drivers), &right, &right[..1]);
}

#[test]
fn the_last_driver_wins() {
    // The inverter says 1 at first, and then 0.
    let drivers = [gate(BUFFER, [0], 1, 2), gate(INVERTER, [0], 1, 4)];
    let right = [(0, 1, 3), (2, 1, 0), (4, 1, 2), (7, 1, 1), (9, 1, 2)];
    let wrong = [(0, 1, 3), (4, 1, 1), (9, 1, 0)];
    shown(Fault::LastDriver, &bus(&drivers), &right, &wrong);
}

#[test]
fn a_clash_gives_0() {
    let drivers = [gate(BUFFER, [0], 1, 0), constant(HIGH, 1, 0)];
    let wrong = [(0, 1, 0), (5, 1, 1)];
    let right = [(0, 1, 2), (5, 1, 1)];
    shown(Fault::ClashIsLow, &bus(&drivers), &right, &wrong);
}

#[test]
fn a_driver_is_forgotten() {
    let drivers = [gate(BUFFER, [0], 1, 1), constant(NONE, 1, 0)];
    let right = [(0, 1, 3), (1, 1, 0), (6, 1, 1)];
    shown(Fault::Forgotten, &bus(&drivers), &right, &right[..1]);
}

/// Four drivers have 1,024 changes each and a fifth one, and the node, which stays X, none: they fall on
/// 1,024 ticks.
#[test]
fn pending_changes_are_counted_on_the_node() {
    let cases = drivers_by_hand::cases().into_iter();
    let mut refused = cases.filter(|case| case.answer == [20, 1_023, 1_025]);
    let Case {
        sheet,
        horizon,
        bytes,
        ..
    } = refused.next().expect("there is a case");
    for edition in Edition::ALL {
        let outcome = agreed(edition, &sheet.encode(edition), horizon, bytes, "crowded");
        assert_eq!(outcome.answer, [20, 1_023, 1_025]);
    }
    let pending = |fault| run(&sheet, horizon, fault).most_pending;
    assert_eq!(pending(None), 4_097);
    assert_eq!(pending(Some(Fault::PendingOnNode)), 1_024);
}

/// A generated sheet that runs to a short horizon, and what comes of it.
fn finished(edition: Edition, generator: &mut Generator) -> (Sheet, u32, Outcome) {
    loop {
        let RunInput { sheet, horizon } = generator.run_input();
        if !(1..=200).contains(&horizon) {
            continue;
        }
        let room = room_for_all(edition, &sheet, horizon);
        let outcome = plain(edition, &sheet, horizon, room, "a fault");
        if let (0, Ok(read)) = (outcome.answer[0], read(edition, &sheet)) {
            let pending = plain::pending(&read, &plain::timelines(&read, horizon));
            let right = Outcome {
                records: records(&outcome.listing),
                most_pending: pending.into_iter().max().expect("there is a tick"),
            };
            return (read, horizon, right);
        }
    }
}

/// The generated sheets show every fault many times over, and a simulator without one has none.
fn every_fault_is_shown(edition: Edition) {
    let seed = 9;
    let mut generator = Generator::of(edition, seed);
    let mut shown = [0; FAULTS.len()];
    let sheets = 4_000;
    for place in 0..sheets {
        let (sheet, horizon, right) = finished(edition, &mut generator);
        let without = run(&sheet, horizon, None);
        assert_eq!(without, right, "seed {seed}, sheet {place}: {sheet:?}");
        for (count, fault) in shown.iter_mut().zip(FAULTS) {
            *count += u32::from(run(&sheet, horizon, Some(fault)) != right);
        }
    }
    println!("{edition:?}: of {sheets} sheets each of {FAULTS:?} is shown by {shown:?}");
    assert!(shown.iter().all(|&n| n >= 10), "{shown:?}");
}

#[test]
fn generated_sheets_show_every_fault() {
    every_fault_is_shown(Edition::First);
}

#[test]
fn generated_sheets_of_the_second_edition_show_every_fault() {
    every_fault_is_shown(Edition::Second);
}
