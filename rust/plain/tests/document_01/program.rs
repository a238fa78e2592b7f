//! What the program prints.

use crate::support::*;
use generate::limits::MOST_PRINTED;
use plain::{program, sentence, worked_run, Answer, INPUT, LOW};

fn printed(input: &[u8]) -> String {
    String::from_utf8(program(input)).unwrap()
}

fn printed_for(horizon: u32, sheet: &[u8]) -> String {
    printed(&[&horizon.to_le_bytes(), sheet].concat())
}

/// The one line that is printed of a refusal.
fn refused(number: u32, place: u32, count: u32) -> String {
    sentence(Answer::Refused {
        number,
        place,
        count,
    }) + "\n"
}

#[test]
fn missing_bytes_of_the_horizon_are_0() {
    assert_eq!(printed(&[]), refused(1, 0, 0));
    assert_eq!(printed(&[0, 0, 0]), refused(1, 0, 0));
    assert_eq!(printed(&[12]), refused(2, 0, 0));
    assert_eq!(printed(&[0, 1]), refused(2, 0, 0));
    // 0x110000 is above 1,000,000.
    assert_eq!(printed(&[0, 0, 0x11]), refused(1, 0, 0));
}

#[test]
fn a_refusal_prints_its_sentence_alone() {
    let sheet = &worked_run::SHEET[..12];
    assert_eq!(
        printed_for(12, sheet),
        "refused: the sheet's bytes end inside a count or a record, at the sheet's byte 6; \
         records written: 0\n"
    );
    assert_eq!(printed_for(0, worked_run::SHEET), refused(1, 0, 0));
}

#[test]
fn every_value_has_its_symbol() {
    let drive = [(0, 0, 0), (10, 0, 1), (200, 0, 2), (3_000, 0, 3)];
    let sheet = sheet(&[INPUT], &[], &drive, &[0]).encode(Edition::First);
    let expected =
        "finished, with a count of 4\n0 0 0 10\n10 0 1 200\n200 0 X 3000\n3000 0 Z 1000000\n";
    assert_eq!(printed_for(1_000_000, &sheet), expected);
}

#[test]
fn no_records() {
    let sheet = sheet(&[INPUT], &[], &[(0, 0, 1)], &[]).encode(Edition::First);
    assert_eq!(printed_for(5, &sheet), "finished, with a count of 0\n");
}

#[test]
fn six_thousand_records_are_lent_room() {
    let ring = sheet(&[LOW], &[gate(INVERTER, [0, 0], 0, 1)], &[], &[0]).encode(Edition::First);
    let full = printed_for(MOST_PRINTED, &ring);
    assert!(full.starts_with("finished, with a count of 6000\n0 0 0 1\n1 0 1 2\n"));
    assert!(full.ends_with("\n5999 0 1 6000\n"));
    // Records that were written before a refusal are not printed.
    assert_eq!(printed_for(6_001, &ring), refused(19, 6_000, 6_000));
}

/// The longest sheet that there is: every section is full. One node is an input, so two modules drive
/// one node.
fn longest() -> Vec<u8> {
    let mut nodes = [LOW; 256];
    nodes[0] = INPUT;
    let outputs = (1..=255).chain([255]);
    let modules: Vec<_> = outputs.map(|output| constant(LOW, output, 0)).collect();
    let drive: Vec<_> = (0..1_024).map(|tick| (tick, 0, 0)).collect();
    let watched: Vec<_> = (0..=255).collect();
    sheet(&nodes, &modules, &drive, &watched).encode(Edition::First)
}

#[test]
fn the_longest_sheet_is_read_whole() {
    let mut sheet = longest();
    assert_eq!(sheet.len(), 8_456);
    let printed = printed_for(1, &sheet);
    assert!(printed.starts_with("finished, with a count of 256\n0 0 0 1\n0 1 0 1\n"));
    sheet.push(0);
    assert_eq!(printed_for(1, &sheet), refused(17, 8_456, 0));
}

#[test]
fn bytes_past_the_longest_sheet_change_nothing() {
    let mut input = worked_run::INPUT.to_vec();
    input.resize(20_000, 0);
    assert_eq!(printed(&input), refused(17, 31, 0));
}
