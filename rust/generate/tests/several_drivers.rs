//! Document 02, W-209: sheets with several drivers a node are accepted, and their drivers say everything
//! that drivers of one node can say.

use generate::drivers::{has_several_drivers, DriversMet};
use generate::{Generator, RunInput, Size};
use plain::{check, read, Answer, Edition, Sheet};

const HORIZON: u32 = 60;

/// So many sheets of a family, each seen to be accepted.
fn accepted(edition: Edition, sheets: usize, next: fn(&mut Generator) -> Sheet) -> Vec<Sheet> {
    let mut generator = Generator::of(edition, 70);
    let sheets: Vec<Sheet> = (0..sheets).map(|_| next(&mut generator)).collect();
    for sheet in &sheets {
        let answer = check(edition, &sheet.encode(edition));
        assert_eq!(answer, Answer::Ran { count: 0 }, "{sheet:?}");
    }
    sheets
}

/// Asserts that so many of a hundred have a node with several drivers.
fn shared_in(percent: usize, sheets: &[Sheet], whence: &str) {
    let shared = sheets.iter().filter(|sheet| has_several_drivers(sheet));
    let shared = shared.count();
    println!("{whence}: of {} sheets {shared}", sheets.len());
    assert!(100 * shared >= percent * sheets.len(), "{whence}: {shared}");
}

/// A family's name, how many of its sheets are made, and what makes them.
type Family = (&'static str, usize, fn(&mut Generator) -> Sheet);

#[test]
fn further_drivers_are_accepted() {
    let families: [Family; 5] = [
        ("tiny", 3_000, |g| g.several_drivers(Size::Tiny)),
        ("small", 3_000, |g| g.several_drivers(Size::Small)),
        ("medium", 300, |g| g.several_drivers(Size::Medium)),
        ("large", 100, |g| g.several_drivers(Size::Large)),
        ("longest", 20, Generator::longest),
    ];
    for edition in Edition::ALL {
        for (name, sheets, next) in families {
            let sheets = accepted(edition, sheets, next);
            shared_in(90, &sheets, &format!("{edition:?}, {name}"));
        }
    }
}

/// The nodes of several drivers in lively sheets.
#[test]
fn everything_that_drivers_say() {
    for edition in Edition::ALL {
        let mut met = DriversMet::default();
        for sheet in accepted(edition, 10_000, |g| g.several_drivers(Size::Small)) {
            met.add(&sheet, HORIZON);
        }
        println!("{edition:?}: {met:?}");
        met.assert_often(50, &format!("{edition:?}"));
    }
}

/// Buses are mostly driven by one inverter at a time, and are handed over in every way.
#[test]
fn buses() {
    for edition in Edition::ALL {
        let mut generator = Generator::of(edition, 71);
        let mut met = DriversMet::default();
        for _ in 0..3_000 {
            let RunInput { sheet, horizon } = generator.bus();
            let sheet = read(edition, &sheet).expect("it is accepted");
            assert!(has_several_drivers(&sheet), "{sheet:?}");
            met.add(&sheet, horizon);
        }
        println!("{edition:?}: {met:?}");
        met.said.assert_often(500, &format!("{edition:?}"));
    }
}

/// What checks and runs are given: sheets with several drivers a node are among them, accepted and refused.
#[test]
fn in_the_mixtures() {
    for edition in Edition::ALL {
        let mut generator = Generator::of(edition, 72);
        let sheets: Vec<Vec<u8>> = (0..10_000).map(|_| generator.any()).collect();
        in_a_mixture(edition, &sheets, "checks");
        let runs = (0..10_000).map(|_| generator.run_input().sheet);
        in_a_mixture(edition, &runs.collect::<Vec<_>>(), "runs");
    }
}

fn in_a_mixture(edition: Edition, sheets: &[Vec<u8>], whence: &str) {
    let accepted = sheets.iter().filter_map(|sheet| read(edition, sheet).ok());
    let shared = accepted.filter(has_several_drivers).count();
    println!("{edition:?}, {whence}: {shared} accepted sheets with several drivers a node");
    assert!(shared >= 1_000, "{whence}: {shared}");
}
