//! All simulators agree on generated sheets before any is timed.

use generate::shared::unknown_at_first;
use generate::sheets::MEMORY;
use generate::{drivers_by_hand, every, Generator, Size};
use plain::{Edition, Sheet};

use crate::outside::Simulator;
use crate::same;
use crate::timed::{self, Run};

/// The library, the same algorithm in safe Rust and the plain simulator over any inputs.
pub fn ours() {
    let runs = [
        ("the library", compare::run as Run),
        ("safe Rust", same::run),
    ];
    for edition in Edition::ALL {
        let mut generator = Generator::of(edition, 1);
        for place in 0..10_000 {
            let input = generator.run_input();
            let length = generator.buffer_length();
            let outcome = |run: Run| {
                let mut listing = vec![0xA5; length];
                let answer = run(edition, &input.sheet, input.horizon, &mut listing);
                (answer, listing)
            };
            let plain = outcome(timed::plain);
            for (name, run) in runs {
                assert!(outcome(run) == plain, "{name}, {edition:?}, input {place}");
            }
        }
    }
}

/// A simulator that is not ours over sheets that are translated for it: all gates at all values,
/// inputs that are X at first, drivers of one node that say all pairs and triples of values, and
/// generated ones, with one driver a node and with several.
pub fn translations(simulator: &Simulator) {
    translation(simulator, &unknown_at_first(), HORIZON);
    for edition in Edition::ALL {
        for delay in [0, 5] {
            translation(simulator, &every::gates(edition, delay), HORIZON);
        }
        generated(simulator, edition, Generator::lively);
        generated(simulator, edition, Generator::several_drivers);
    }
    for case in drivers_by_hand::cases() {
        if case.answer[0] == 0 && case.horizon <= HORIZON && !could_catch(&case.sheet) {
            translation(simulator, &case.sheet, case.horizon);
        }
    }
    joins(simulator, [0, 0]);
    joins(simulator, [3, 1]);
    joins(simulator, [0, 0, 0]);
    joins(simulator, [2, 0, 5]);
}

const HORIZON: u32 = 100;

/// Sheets of a family that are translated.
fn generated(simulator: &Simulator, edition: Edition, family: fn(&mut Generator, Size) -> Sheet) {
    let sheets = 100;
    let mut generator = Generator::of(edition, 2);
    let mut translated = 0;
    while translated < sheets {
        let sheet = family(&mut generator, Size::Small);
        if !sheet.watched.is_empty() && !could_catch(&sheet) {
            translation(simulator, &sheet, HORIZON);
            translated += 1;
        }
    }
}

/// Drivers with these delays that say every pair or triple of values. Their memories catch everything, so
/// what passes inside a tick does not stay.
fn joins<const N: usize>(simulator: &Simulator, delays: [u16; N]) {
    let every::Joins { sheet, horizon, .. } = every::joins(delays);
    translation(simulator, &sheet, horizon);
}

/// Every sheet is one of the second edition, too.
fn translation(simulator: &Simulator, sheet: &Sheet, horizon: u32) {
    let ours = timed::run(timed::plain, 1, Edition::Second, sheet, horizon).records;
    let theirs = simulator.run(sheet, horizon).expect(simulator.name);
    assert!(theirs.records == ours, "{}: {sheet:?}", simulator.name);
}

/// Whether a memory might see values that pass inside a tick, which it would catch there.
fn could_catch(sheet: &Sheet) -> bool {
    let has_memory = sheet.modules.iter().any(|module| module.kind == MEMORY);
    let has_zero_delay = sheet.modules.iter().any(|module| module.delay == 0);
    has_memory && has_zero_delay
}
