//! Showing a sheet and assembling its text gives the same sheet, and showing that the same text.

use std::collections::BTreeMap;

use generate::Generator;
use timing::{number, Edition};
use workbench::card::Card;
use workbench::text;

/// How many accepted sheets of each edition are shown and assembled.
const ACCEPTED: u32 = 50_000;

/// How many refused ones of each number must be met among them.
const REFUSED: u32 = 100;

fn generated(edition: Edition) -> Generator {
    let edition = match edition {
        Edition::First => plain::Edition::First,
        Edition::Second => plain::Edition::Second,
    };
    Generator::of(edition, 21)
}

/// Asserts it of one sheet.
fn there_and_back(card: &Card) {
    let shown = text::write(card);
    let back =
        text::assemble(shown.as_bytes()).unwrap_or_else(|mistake| panic!("{mistake}\n{shown}"));
    assert_eq!(back.sheet, card.sheet, "{shown}");
    assert_eq!(back.edition, card.edition);
    assert_eq!(back.names, card.names);
    assert_eq!(text::write(&back), shown);
}

/// Refusals of records' fields, and of loops: such sheets can be written as text.
fn can_be_written(refusal: u32) -> bool {
    matches!(
        refusal,
        number::BYTE_ABOVE..=number::WRONG_WATCHED | number::ON_LOOP
    )
}

fn sheets_of(edition: Edition) {
    let mut generator = generated(edition);
    let mut accepted = 0;
    let mut refused = BTreeMap::new();
    while accepted < ACCEPTED {
        let card = Card::of_sheet(edition, generator.any(), &[]);
        match card.sheet().check() {
            Ok(()) => accepted += 1,
            Err(refusal) => *refused.entry(refusal.number()).or_insert(0) += 1,
        }
        there_and_back(&card);
    }
    let met = |&&number: &&u32| can_be_written(number);
    assert_eq!(refused.keys().filter(met).count(), 12, "{refused:?}");
    assert!(
        refused.values().all(|&count| count >= REFUSED),
        "{refused:?}"
    );
}

#[test]
fn sheets_of_the_first_edition() {
    sheets_of(Edition::First);
}

#[test]
fn sheets_of_the_second_edition() {
    sheets_of(Edition::Second);
}

/// Sheets that no generated one may be: without nodes, and cut at each byte.
#[test]
fn small_sheets() {
    let whole = [0, 0, 0, 0, 0, 0, 0, 0];
    let worked = plain::worked_run::SHEET;
    let cut = (0..=worked.len()).map(|length| &worked[..length]);
    for sheet in cut.chain([&whole[..], &whole[..3]]) {
        there_and_back(&Card::of_sheet(Edition::First, sheet.to_vec(), &[]));
    }
}

/// The sheet's names come from a text, and those that are missing are made.
#[test]
fn names_are_kept() {
    let given = ["shear".to_string(), "n2".to_string()];
    let sheet = vec![4, 0, 4, 4, 4, 4, 0, 0, 0, 0, 0, 0];
    let card = Card::of_sheet(Edition::First, sheet, &given);
    assert_eq!(card.names, ["shear", "n2", "n2_", "n3"]);
    there_and_back(&card);
}
