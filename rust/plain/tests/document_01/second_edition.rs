//! Document 02, W-205: the second edition of the sheet.

use crate::support::*;
use generate::limits::RECORD_BYTES;
use generate::{by_hand, runs_by_hand};
use plain::{renumbered, Answer, Module, Sheet, HIGH, INPUT, LOW, UNKNOWN};

/// What a check of the sheet answers in an edition.
fn checked(edition: Edition, sheet: &Sheet) -> [u32; 3] {
    plain::check(edition, &sheet.encode(edition)).triple()
}

/// Kind, parameter, output, first, second, third, and the delay's low byte first. Nothing else differs.
#[test]
fn the_third_input_stands_before_the_delay() {
    let modules = [gate(MULTIPLEXER, [3, 4, 5], 6, 0x0102)];
    let sheet = sheet(&[INPUT, 0], &modules, &[(7, 0, 1)], &[1]);
    let start = [2, 0, 4, 0, 1, 0];
    let rest = [1, 0, 7, 0, 0, 0, 0, 1, 1, 0, 1];
    let record = [15, 0, 6, 3, 4, 5, 0x02, 0x01];
    let expected = [&start[..], &record, &rest].concat();
    assert_eq!(sheet.encode(Edition::Second), expected);
    let record = [15, 0, 6, 3, 4, 0x02, 0x01];
    let expected = [&start[..], &record, &rest].concat();
    assert_eq!(sheet.encode(Edition::First), expected);
}

#[test]
fn it_is_read_as_it_was_written() {
    let start = by_hand::start_2();
    let read = plain::read(Edition::Second, &start.encode(Edition::Second));
    assert_eq!(read, Ok(start));
    // A sheet of the first edition is one without third inputs.
    let start = by_hand::start();
    for edition in Edition::ALL {
        let read = plain::read(edition, &start.encode(edition));
        assert_eq!(read.as_ref(), Ok(&start), "{edition:?}");
    }
}

/// [`by_hand::start_2`] with another kind at its second module, whose first two inputs are used and
/// whose third is used or 0.
fn with_kind(kind: u8) -> Sheet {
    let mut sheet = by_hand::start_2();
    let module = &mut sheet.modules[1];
    module.kind = kind;
    if module.input_count() < 3 {
        module.third = 0;
    }
    sheet
}

#[test]
fn refusal_5_begins_above_15() {
    for kind in AND..=MULTIPLEXER {
        assert_eq!(checked(Edition::Second, &with_kind(kind)), [0, 0, 0]);
    }
    for kind in MULTIPLEXER + 1..=u8::MAX {
        assert_eq!(checked(Edition::Second, &with_kind(kind)), [5, 16, 0]);
    }
}

#[test]
fn in_the_first_edition_above_9() {
    for kind in AND..=MEMORY {
        assert_eq!(checked(Edition::First, &with_kind(kind)), [0, 0, 0]);
    }
    for kind in AND_3..=u8::MAX {
        assert_eq!(checked(Edition::First, &with_kind(kind)), [5, 15, 0]);
    }
}

#[test]
fn kinds_10_to_15_have_no_parameter() {
    for kind in AND_3..=MULTIPLEXER {
        for parameter in 1..=u8::MAX {
            let mut sheet = with_kind(kind);
            sheet.modules[1].parameter = parameter;
            assert_eq!(checked(Edition::Second, &sheet), [6, 16, 0], "kind {kind}");
        }
    }
}

/// Nodes 0 to 3 are there.
#[test]
fn every_third_input() {
    for kind in AND..=MULTIPLEXER {
        for third in 0..=u8::MAX {
            let mut sheet = with_kind(kind);
            sheet.modules[1].third = third;
            let is_used = kind > MEMORY;
            let is_good = if is_used { third <= 3 } else { third == 0 };
            let expected = if is_good { [0, 0, 0] } else { [7, 16, 0] };
            let answer = checked(Edition::Second, &sheet);
            assert_eq!(answer, expected, "kind {kind}, third {third}");
        }
    }
}

/// The chain from node 2 back to it goes by the third input alone.
#[test]
fn a_loop_by_the_third_input_alone() {
    let ring = |kind, inputs: [u8; 3], delay| {
        let modules = [gate(BUFFER, [3], 2, 0), gate(kind, inputs, 3, delay)];
        sheet(&[INPUT, INPUT, LOW, LOW], &modules, &[], &[])
    };
    for kind in AND_3..=MULTIPLEXER {
        assert_eq!(
            checked(Edition::Second, &ring(kind, [0, 1, 2], 0)),
            [18, 2, 0]
        );
        assert_eq!(
            checked(Edition::Second, &ring(kind, [0, 1, 2], 1)),
            [0, 0, 0]
        );
        assert_eq!(
            checked(Edition::Second, &ring(kind, [0, 1, 0], 0)),
            [0, 0, 0]
        );
    }
}

#[test]
fn the_longest_sheet() {
    let mut nodes = [LOW; 256];
    nodes[0] = INPUT;
    let outputs = (1..=u8::MAX).chain([1]);
    let modules: Vec<Module> = outputs
        .map(|output| gate(MULTIPLEXER, [0, 0, 0], output, 1))
        .collect();
    let drive: Vec<Change> = (0..1_024).map(|tick| (tick, 0, 0)).collect();
    let watched: Vec<u8> = (0..=u8::MAX).collect();
    let mut bytes = sheet(&nodes, &modules, &drive, &watched).encode(Edition::Second);
    assert_eq!(bytes.len(), 8_712);
    let check = |bytes: &[u8]| plain::check_strict(Edition::Second, bytes).triple();
    assert_eq!(check(&bytes), [0, 0, 0]);
    bytes.push(0);
    assert_eq!(check(&bytes), [17, 8_712, 0]);
}

#[test]
fn renumbering_carries_a_used_third_input() {
    let original = sheet(
        &[INPUT, 0, INPUT, 1],
        &[gate(NAND, [2, 0], 1, 5), gate(MULTIPLEXER, [0, 2, 1], 3, 0)],
        &[(0, 0, 1), (0, 2, 0)],
        &[1, 3],
    );
    let expected = sheet(
        &[INPUT, 1, INPUT, 0],
        &[gate(MULTIPLEXER, [0, 2, 3], 1, 0), gate(NAND, [2, 0], 3, 5)],
        &[(0, 0, 1), (0, 2, 0)],
        &[1, 3],
    );
    assert_eq!(renumbered(&original, &[0, 3, 2, 1], &[1, 0]), expected);
}

/// Node 0 has another number, and an unused third input of 0 stays.
#[test]
fn unused_third_inputs_stay_0() {
    let original = sheet(&[INPUT, UNKNOWN], &[gate(OR, [0, 0], 1, 0)], &[], &[0, 1]);
    let other = renumbered(&original, &[1, 0], &[0]);
    assert_eq!(other.modules, [gate(OR, [1, 1, 0], 0, 0)]);
    let original = sheet(&[INPUT, LOW], &[gate(OR_3, [0, 1, 0], 1, 1)], &[], &[1]);
    let other = renumbered(&original, &[1, 0], &[0]);
    assert_eq!(other.modules, [gate(OR_3, [1, 0, 1], 0, 1)]);
}

#[test]
fn runs_worked_out_by_hand() {
    for case in runs_by_hand::cases() {
        let records = listed_in(Edition::Second, &case.sheet, case.horizon);
        assert_eq!(records, case.records, "{}", case.name);
    }
}

/// The same answers, the ends and what 19 and 20 leave included.
#[test]
fn a_sheet_of_the_first_edition_runs_alike() {
    for case in generate::ends_by_hand::cases() {
        let outcome = |edition| {
            let bytes = case.sheet.encode(edition);
            run_in(edition, &bytes, case.horizon, case.bytes)
        };
        assert_eq!(outcome(Edition::Second), outcome(Edition::First));
        let (answer, listing) = outcome(Edition::Second);
        assert_eq!(written(answer, &listing), case.records, "{}", case.name);
    }
}

#[test]
fn a_run_is_refused_as_the_check_is() {
    let mut sheet = by_hand::start_2();
    sheet.modules[1].third = 4;
    let bytes = sheet.encode(Edition::Second);
    let (answer, listing) = run_in(Edition::Second, &bytes, 12, 60);
    assert_eq!(answer.triple(), [7, 16, 0]);
    assert_eq!(listing, [UNTOUCHED; 60]);
    let (answer, _) = run_in(Edition::Second, &bytes, 0, 60);
    assert_eq!(answer.triple(), [1, 0, 0]);
    // The delay, and not the third input, makes the first value last.
    sheet.modules[1] = gate(XOR_3, [0, 1, 1], 3, 1);
    sheet.watched = vec![3];
    let bytes = sheet.encode(Edition::Second);
    let (answer, listing) = run_in(Edition::Second, &bytes, 8, 3 * RECORD_BYTES);
    assert_eq!(answer, Answer::Ran { count: 3 });
    let expected = [(0, 3, UNKNOWN, 1), (1, 3, LOW, 6), (6, 3, HIGH, 8)];
    assert_eq!(written(answer, &listing), expected);
}

/// The program keeps to the first edition: a record of 8 bytes is none to it.
#[test]
fn the_program_does_not_know_it() {
    let bytes = by_hand::start_2().encode(Edition::Second);
    let input = [&12_u32.to_le_bytes()[..], &bytes].concat();
    let refused = plain::sentence(Answer::of_triple([6, 15, 0])) + "\n";
    assert_eq!(plain::program(&input), refused.as_bytes());
}
