//! Every family has inputs that begin at once, inputs that begin late and inputs that never begin. What
//! follows no sheet is left out.

use generate::{starts_of, Generator, Size, Start};
use plain::{Edition, Sheet};

const STARTS: [Start; 3] = [Start::AtOnce, Start::Late, Start::Never];

/// Counts the sheets of a family that have an input of each start, and asserts that all do so often.
fn all_met(name: &str, sheets: usize, next: impl Fn(Edition, &mut Generator) -> Option<Sheet>) {
    for edition in Edition::ALL {
        let mut generator = Generator::of(edition, 35);
        let mut met = [0; STARTS.len()];
        for _ in 0..sheets {
            let Some(sheet) = next(edition, &mut generator) else {
                continue;
            };
            let starts = starts_of(&sheet);
            for (met, start) in met.iter_mut().zip(STARTS) {
                *met += usize::from(starts.contains(&start));
            }
        }
        println!("{edition:?}, {name}: of {sheets} {met:?} have inputs that begin {STARTS:?}");
        let enough = sheets / 50;
        assert!(met.iter().all(|&met| met >= enough), "{name}: {met:?}");
    }
}

#[test]
fn accepted_sheets_of_every_size() {
    for (size, sheets) in [
        (Size::Tiny, 2_000),
        (Size::Small, 2_000),
        (Size::Medium, 500),
        (Size::Large, 200),
        (Size::Full, 200),
    ] {
        let name = format!("{size:?}");
        all_met(&name, sheets, |_, g| Some(g.valid(size)));
        let name = format!("lively, {name}");
        all_met(&name, sheets, |_, g| Some(g.lively(size)));
    }
}

#[test]
fn networks_without_delay() {
    all_met("rings", 2_000, |_, g| Some(g.zero_delay().sheet));
    all_met("unused inputs", 2_000, |_, g| {
        Some(g.closed_by_unused_inputs().sheet)
    });
    all_met("tangles", 2_000, |_, g| Some(g.tangle()));
}

#[test]
fn sheets_with_several_drivers_a_node() {
    for size in [Size::Tiny, Size::Small] {
        all_met("several drivers", 2_000, |_, g| {
            Some(g.several_drivers(size))
        });
    }
    all_met("rings", 2_000, |_, g| {
        Some(g.zero_delay_of_several_drivers().sheet)
    });
    all_met("buses", 2_000, |edition, g| {
        plain::read(edition, &g.bus().sheet).ok()
    });
}

#[test]
fn crowded_sheets() {
    all_met("crowded", 500, |edition, g| {
        plain::read(edition, &g.crowded().sheet).ok()
    });
}

#[test]
fn networks_of_gates() {
    for edition in Edition::ALL {
        for start in STARTS {
            let sheet = Generator::of(edition, 36).gates(20, 100, start);
            assert_eq!(starts_of(&sheet), [start]);
        }
    }
}

/// Counts the sheets of a damaged family that a strict check answers 15, and asserts that there are
/// enough.
fn refused_by_15(name: &str, next: impl Fn(Edition, &mut Generator) -> Vec<u8>) {
    for edition in Edition::ALL {
        let mut generator = Generator::of(edition, 39);
        let sheets = (0..5_000).map(|_| next(edition, &mut generator));
        let answers = sheets.map(|sheet| plain::check_strict(edition, &sheet).triple());
        let refused = answers.filter(|&[number, ..]| number == 15).count();
        println!("{edition:?}, {name}: of 5,000 sheets {refused} are answered 15");
        assert!(refused >= 100, "{name}: {refused}");
    }
}

#[test]
fn damaged_sheets() {
    for faults in [1, 2, 5] {
        let name = format!("{faults} faults");
        refused_by_15(&name, |edition, g| g.faulty(faults).encode(edition));
    }
    refused_by_15("a wrong record", |edition, g| {
        g.faulty_record().encode(edition)
    });
    refused_by_15("a wrong count", |_, g| g.with_wrong_count());
    refused_by_15("cut short", |_, g| g.truncated());
    refused_by_15("bytes left over", |_, g| g.left_over());
    refused_by_15("bytes changed", |_, g| g.mutated());
}

/// What runs are given: 15 of a hundred accepted sheets at least have an input that is X at first.
#[test]
fn runs() {
    let next = |edition, g: &mut Generator| plain::read(edition, &g.run_input().sheet).ok();
    all_met("runs", 2_000, next);
    for edition in Edition::ALL {
        let mut generator = Generator::of(edition, 37);
        let sheets = (0..5_000).filter_map(|_| next(edition, &mut generator));
        let starts: Vec<Vec<Start>> = sheets.map(|sheet| starts_of(&sheet)).collect();
        let is_unknown = |starts: &&Vec<Start>| starts.iter().any(|&start| start != Start::AtOnce);
        let (accepted, unknown) = (starts.len(), starts.iter().filter(is_unknown).count());
        println!(
            "{edition:?}: of {accepted} accepted sheets {unknown} have an input that is X at first"
        );
        assert!(accepted >= 2_500 && 100 * unknown >= 15 * accepted);
    }
}
