//! Valid sheets are accepted, and reach every limit.

use std::collections::BTreeSet;

use generate::limits::LONGEST_SHEETS;
use generate::sheets::{AND_3, MULTIPLEXER};
use generate::{starts_of, Generator, Size, Start};
use plain::{check, read, Answer, Edition, Module, Sheet};

/// So many sheets of a size, each seen to be accepted and to be read back as it was made.
fn accepted(edition: Edition, seed: u64, size: Size, sheets: usize) -> Vec<Sheet> {
    let mut generator = Generator::of(edition, seed);
    let sheets: Vec<Sheet> = (0..sheets).map(|_| generator.valid(size)).collect();
    for sheet in &sheets {
        let bytes = sheet.encode(edition);
        assert_eq!(
            check(edition, &bytes),
            Answer::Ran { count: 0 },
            "{sheet:?}"
        );
        assert_eq!(read(edition, &bytes).as_ref(), Ok(sheet));
    }
    sheets
}

/// How many different things are seen in the sheets.
fn different<T: Ord>(sheets: &[Sheet], seen: impl FnMut(&Sheet) -> T) -> usize {
    sheets.iter().map(seen).collect::<BTreeSet<T>>().len()
}

#[test]
fn small_ones() {
    for edition in Edition::ALL {
        let tiny = accepted(edition, 1, Size::Tiny, 5_000);
        assert_eq!(different(&tiny, |sheet| sheet.nodes.len()), 4);
        assert_eq!(different(&tiny, |sheet| sheet.modules.len()), 5);
        let small = accepted(edition, 2, Size::Small, 10_000);
        assert_eq!(different(&small, |sheet| sheet.nodes.len()), 20);
        assert_eq!(different(&small, |sheet| sheet.modules.len()), 21);
    }
}

#[test]
fn larger_ones() {
    for edition in Edition::ALL {
        let medium = accepted(edition, 3, Size::Medium, 1_000);
        assert_eq!(different(&medium, |sheet| sheet.nodes.len()), 80);
        let large = accepted(edition, 4, Size::Large, 500);
        let count = |has: fn(&Sheet) -> bool| large.iter().filter(|sheet| has(sheet)).count();
        assert!(count(|sheet| sheet.modules.is_empty()) >= 10);
        assert!(count(|sheet| sheet.drive.is_empty()) >= 10);
        assert!(count(|sheet| sheet.watched.is_empty()) >= 10);
        assert!(count(|sheet| sheet.drive.len() > 900) >= 10);
    }
}

/// Every section is at its limit. The longest sheet with one driver a node has so many bytes.
fn full(edition: Edition, longest: usize) {
    for sheet in accepted(edition, 5, Size::Full, 100) {
        assert_eq!(sheet.nodes.len(), 256);
        assert_eq!(sheet.watched.len(), 256);
        match sheet.modules.len() {
            // One of 256 modules has no input to drive.
            255 if starts_of(&sheet) != [Start::Never] => {
                assert_eq!(sheet.encode(edition).len(), longest);
            }
            255 => assert_eq!(sheet.drive, []),
            256 => assert_eq!(sheet.drive, []),
            other => panic!("{other} modules"),
        }
    }
}

#[test]
fn full_ones() {
    full(Edition::First, 8_449);
    full(Edition::Second, 8_704);
}

/// With several drivers a node there may be an input and 256 modules.
#[test]
fn the_longest_ones() {
    for (edition, longest) in Edition::ALL.into_iter().zip(LONGEST_SHEETS) {
        let mut generator = Generator::of(edition, 8);
        for _ in 0..100 {
            let sheet = generator.longest();
            let bytes = sheet.encode(edition);
            assert_eq!(bytes.len(), longest);
            assert_eq!(read(edition, &bytes), Ok(sheet));
        }
    }
}

/// The modules of 10,000 small sheets.
fn small_modules(edition: Edition) -> Vec<Module> {
    let sheets = accepted(edition, 6, Size::Small, 10_000);
    sheets.into_iter().flat_map(|sheet| sheet.modules).collect()
}

#[test]
fn every_kind_with_and_without_delay() {
    for edition in Edition::ALL {
        let modules = small_modules(edition);
        for kind in 0..=edition.greatest_kind() {
            for delays in [0..=0, 1..=9, 10..=9_999, 10_000..=10_000] {
                let alike = |m: &&Module| m.kind == kind && delays.contains(&m.delay);
                let seen = modules.iter().filter(alike).count();
                assert!(seen >= 10, "kind {kind}, delays {delays:?}: {seen}");
            }
        }
        for (kind, parameters) in [(0, 0..=3), (9, 0..=15)] {
            for parameter in parameters {
                let alike = |m: &Module| m.kind == kind && m.parameter == parameter;
                assert!(modules.iter().any(alike));
            }
        }
    }
}

/// Each of the inputs of a kind with three is now and then a node that neither of the others is.
#[test]
fn third_inputs_of_their_own() {
    let modules = small_modules(Edition::Second);
    for kind in AND_3..=MULTIPLEXER {
        let alike = || modules.iter().filter(|module| module.kind == kind);
        let own = |m: &&Module| m.third != m.first && m.third != m.second;
        let seen = [alike().count(), alike().filter(own).count()];
        println!("kind {kind}: {seen:?} modules, with a third input of its own");
        assert!(seen[1] >= 500, "kind {kind}: {seen:?}");
    }
    assert!(small_modules(Edition::First).iter().all(|m| m.third == 0));
}
