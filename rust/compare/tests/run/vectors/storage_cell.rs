//! Source document 002: the dynamic storage cell of its figure 1, in ticks of 0.1 ns.
//!
//! "Its three components (l-r) are a clocked inverter with delay 1.7 nsec, a storage node, and an
//! inverter with delay 0.5 nsec." The document's * is no value, Z. "The storage node holds the
//! most recent non-* value": a memory that reads one node twice, with all values but Z in its set.
//!
//! Its clocked inverter gives * for every clock but 1. Since document 02's W-202 that holds of clock
//! 0 alone, and a clock of X or Z gives X, which the storage node takes. So what the document says
//! stands where its clock is 0 or 1, and changed where it is not known.

use generate::sheets::*;
use plain::{Sheet, HIGH, INPUT, LOW, NONE, UNKNOWN};

use crate::agreed::listed;

const A: u8 = 0;
const PHI: u8 = 1;
const B: u8 = 2;
const C: u8 = 3;
const Y: u8 = 4;

/// All values but Z.
const ANY_VALUE: u8 = 0b0111;

fn storage_cell(drive: &[Change], watched: &[u8]) -> Sheet {
    let modules = [
        gate(CLOCKED_INVERTER, [A, PHI], B, 17),
        memory(ANY_VALUE, [B, B], C, 0),
        gate(INVERTER, [C, 0], Y, 5),
    ];
    let nodes = [INPUT, INPUT, NONE, NONE, UNKNOWN];
    sheet(&nodes, &modules, drive, watched)
}

/// What the document derives from the three, in section II's code: "when either a or phi changes,
/// if phi is 1, schedule an event at the same time to change a_state to the current value of a.
/// Whenever a_state changes, schedule an event 2.2 later to drive y". That is one memory.
fn derived_cell(drive: &[Change]) -> Sheet {
    let y = 2;
    let modules = [memory(0b0010, [A, PHI], y, 22)];
    sheet(&[INPUT, INPUT, UNKNOWN], &modules, drive, &[y])
}

#[test]
fn a_run_worked_out_by_hand() {
    // phi is 1 at ticks 10 to 19, while a is 1, and again from tick 40 on, when a is 0.
    let drive = [
        (0, A, 1),
        (0, PHI, 0),
        (10, PHI, 1),
        (20, PHI, 0),
        (30, A, 0),
        (40, PHI, 1),
    ];
    let expected = [
        (0, B, NONE, 27),
        (0, C, NONE, 27),
        (0, Y, UNKNOWN, 32),
        (27, B, LOW, 37),
        (27, C, LOW, 57),
        (32, Y, HIGH, 62),
        (37, B, NONE, 57),
        (57, B, HIGH, 100),
        (57, C, HIGH, 100),
        (62, Y, LOW, 100),
    ];
    let sheet = storage_cell(&drive, &[B, C, Y]);
    assert_eq!(listed(&sheet, 100, "storage cell"), expected);
}

/// The clock is X at ticks 20 to 29 and Z at ticks 30 to 39. By the document's own rule y would be 1
/// until tick 71.
#[test]
fn an_unknown_clock_worked_out_by_hand() {
    let drive = [
        (0, A, 1),
        (0, PHI, 0),
        (10, PHI, 1),
        (20, PHI, UNKNOWN),
        (30, A, 0),
        (30, PHI, NONE),
        (40, PHI, 0),
        (50, PHI, 1),
    ];
    let expected = [
        (0, B, NONE, 27),
        (0, C, NONE, 27),
        (0, Y, UNKNOWN, 32),
        (27, B, LOW, 37),
        (27, C, LOW, 37),
        (32, Y, HIGH, 42),
        (37, B, UNKNOWN, 57),
        (37, C, UNKNOWN, 67),
        (42, Y, UNKNOWN, 72),
        (57, B, NONE, 67),
        (67, B, HIGH, 100),
        (67, C, HIGH, 100),
        (72, Y, LOW, 100),
    ];
    let sheet = storage_cell(&drive, &[B, C, Y]);
    assert_eq!(listed(&sheet, 100, "unknown clock"), expected);
}

/// Ticks of a stretch in which an input stands still, for each input.
const STRETCHES: [usize; 2] = [7, 5];

/// The stretches of each input.
const COUNT: usize = 5;

/// Every run of the values through the stretches of an input.
fn every_timeline(values: &[u8], stretch: usize) -> Vec<Vec<u8>> {
    let runs = values.len().pow(COUNT as u32);
    let timeline = |run: usize| {
        let of_stretch = |place: u32| values[run / values.len().pow(place) % values.len()];
        let stretches = (0..COUNT as u32).map(of_stretch);
        stretches.flat_map(|value| vec![value; stretch]).collect()
    };
    (0..runs).map(timeline).collect()
}

/// An input's value at a tick; its last one stays.
fn at(timeline: &[u8], tick: usize) -> u8 {
    timeline[tick.min(timeline.len() - 1)]
}

/// The most recent tick up to 22 ago at which phi was as asked.
fn most_recent(phi: &[u8], tick: usize, asked: fn(u8) -> bool) -> Option<usize> {
    let up_to_22_ago = 0..(tick + 1).saturating_sub(22);
    up_to_22_ago.rev().find(|&u| asked(at(phi, u)))
}

/// Section IV's simplified equation, "y(t) = (if (=? 1 phi({<- [=? 1 phi(u)] (t-2.2)})) a({<- [=?
/// 1 phi(u)] (t-2.2)}) -*)": what a was when phi was 1 most recently up to 22 ticks ago. Where it
/// never was, the inverter of * stands, which is undefined.
fn by_equation(a: &[u8], phi: &[u8], tick: usize) -> u8 {
    most_recent(phi, tick, |phi| phi == HIGH).map_or(UNKNOWN, |u| at(a, u))
}

/// That equation with document 02's W-202: what a was when phi was not 0 most recently up to 22
/// ticks ago, or undefined where phi was X or Z then.
fn with_unknown_clocks(a: &[u8], phi: &[u8], tick: usize) -> u8 {
    let stored = most_recent(phi, tick, |phi| phi != LOW);
    let known = stored.filter(|&u| at(phi, u) == HIGH);
    known.map_or(UNKNOWN, |u| at(a, u))
}

/// A tick and the value from it on.
type Step = (u32, u8);

/// The first value and each change of what is given tick by tick.
fn steps(values: impl Iterator<Item = u8>) -> Vec<Step> {
    let mut steps: Vec<Step> = (0..).zip(values).collect();
    steps.dedup_by_key(|&mut (_, value)| value);
    steps
}

fn drive(a: &[u8], phi: &[u8]) -> Vec<Change> {
    let events = |node, timeline: &[u8]| {
        let steps = steps(timeline.iter().copied());
        steps
            .into_iter()
            .map(move |(tick, value)| (tick, node, value))
    };
    let mut drive: Vec<Change> = events(A, a).chain(events(PHI, phi)).collect();
    drive.sort_unstable();
    drive
}

/// Beyond the last change of an input and all delays after it.
const HORIZON: u32 = 80;

/// What an equation gives y at every tick.
fn y_by(equation: fn(&[u8], &[u8], usize) -> u8, a: &[u8], phi: &[u8]) -> Vec<Step> {
    steps((0..HORIZON as usize).map(|tick| equation(a, phi, tick)))
}

/// What a run lists of the one node that is watched.
fn y_of(sheet: &Sheet, whence: &str) -> Vec<Step> {
    let records = listed(sheet, HORIZON, whence).into_iter();
    records.map(|(tick, _, value, _)| (tick, value)).collect()
}

#[test]
fn the_derived_equation() {
    let mut runs = 0;
    for a in every_timeline(&[LOW, HIGH], STRETCHES[0]) {
        for phi in every_timeline(&[LOW, HIGH], STRETCHES[1]) {
            let drive = drive(&a, &phi);
            let expected = y_by(by_equation, &a, &phi);
            let whole = y_of(&storage_cell(&drive, &[Y]), "storage cell");
            assert_eq!(whole, expected, "{drive:?}");
            let derived = y_of(&derived_cell(&drive), "derived cell");
            assert_eq!(derived, expected, "{drive:?}");
            runs += 1;
        }
    }
    assert_eq!(runs, 32 * 32);
}

/// The cell as a whole follows the changed rule. The derived cell, which is the document's own
/// equation and has no clocked inverter, does not where the clock is X or Z.
#[test]
fn clocks_that_are_not_known() {
    let (mut runs, mut changed) = (0, 0);
    for a in every_timeline(&[LOW, HIGH], STRETCHES[0]) {
        for phi in every_timeline(&[LOW, HIGH, UNKNOWN, NONE], STRETCHES[1]) {
            let drive = drive(&a, &phi);
            let expected = y_by(with_unknown_clocks, &a, &phi);
            let whole = y_of(&storage_cell(&drive, &[Y]), "storage cell");
            assert_eq!(whole, expected, "{drive:?}");
            let documents = y_by(by_equation, &a, &phi);
            let derived = y_of(&derived_cell(&drive), "derived cell");
            assert_eq!(derived, documents, "{drive:?}");
            runs += 1;
            changed += usize::from(documents != expected);
        }
    }
    println!("{changed} of {runs} runs changed");
    assert_eq!(runs, 32 * 1_024);
    assert!(changed > runs / 2, "{changed} of {runs}");
}
