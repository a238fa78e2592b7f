//! As many events as a drive may have and one more, sums of more than 32 bits, no input at all, and the
//! longest sheets.

use compare::{check_strict, Outcome};
use generate::limits::{EVENT_BYTES, LONGEST_SHEETS, MOST_EVENTS};
use generate::loads::parts;
use generate::sheets::*;
use generate::{Generator, LoadInput};
use plain::{Edition, Sheet, INPUT, LOW};

use crate::agreed::agreed;

/// More bytes than any of these sheets needs.
const AMPLE: usize = 10_000;

/// As many inputs, and a node that they drive if there is room for one.
fn inputs(count: usize) -> Sheet {
    let mut sheet = sheet(&vec![INPUT; count], &[], &[], &[]);
    if let Ok(output) = u8::try_from(count) {
        sheet.nodes.push(LOW);
        sheet.modules.push(gate(BUFFER, [0], output, 1));
    }
    sheet
}

/// A load of a sheet in an edition.
fn load(edition: Edition, sheet: &Sheet, n: u32, length: usize) -> Outcome {
    let input = LoadInput {
        sheet: sheet.encode(edition),
        seed: 210,
        n,
    };
    agreed(edition, &input, length, "at a limit")
}

#[test]
fn up_to_1024_events() {
    for edition in Edition::ALL {
        for count in [1, 2, 3, 64, 255, 256] {
            let sheet = inputs(count);
            let most = (MOST_EVENTS - count) as u32;
            let needed = sheet.encode(edition).len() + EVENT_BYTES * MOST_EVENTS;
            let Outcome { answer, written } = load(edition, &sheet, most, needed);
            assert_eq!(answer, [0, 0, needed as u32], "{count} inputs");
            assert_eq!(check_strict(edition, &written), [0, 0, 0]);
            let drive = parts(edition, &written).drive;
            assert_eq!(drive[..2], [0, 4], "1,024 events");
            let short = load(edition, &sheet, most, needed - 1);
            assert_eq!(short.answer, [23, needed as u32, 0], "{count} inputs");
            for n in [most + 1, most + 2, most + 1_024, 65_536, 1 << 31] {
                for length in [0, needed - 1, AMPLE] {
                    let answer = load(edition, &sheet, n, length).answer;
                    assert_eq!(answer, [26, 0, 0], "{count} inputs, {n} events");
                }
            }
        }
    }
}

/// All counts whose sums with the inputs have more than 32 bits, and two before them. Of the first sum the
/// lower 32 bits are 0.
#[test]
fn sums_of_more_than_32_bits() {
    for edition in Edition::ALL {
        for count in [1, 2, 3, 64, 255, 256] {
            let sheet = inputs(count);
            let first = u32::MAX - (count as u32 - 1);
            for n in first - 2..=u32::MAX {
                for length in [0, AMPLE] {
                    let answer = load(edition, &sheet, n, length).answer;
                    assert_eq!(answer, [26, 0, 0], "{count} inputs, {n} events");
                }
            }
        }
    }
}

/// An inverter onto its own input. Its sheet is written as it is where no event is drawn.
#[test]
fn no_input() {
    let ring = sheet(&[LOW], &[gate(INVERTER, [0], 0, 1)], &[], &[0]);
    for edition in Edition::ALL {
        let bytes = ring.encode(edition);
        let whole = Outcome {
            answer: [0, 0, bytes.len() as u32],
            written: bytes.clone(),
        };
        assert_eq!(load(edition, &ring, 0, bytes.len()), whole);
        assert_eq!(load(edition, &ring, 0, AMPLE), whole);
        let short = load(edition, &ring, 0, bytes.len() - 1);
        assert_eq!(short.answer, [23, bytes.len() as u32, 0]);
        for n in (1..=1_100).chain([65_536, 1 << 31, u32::MAX - 1, u32::MAX]) {
            for length in [0, bytes.len(), AMPLE] {
                assert_eq!(load(edition, &ring, n, length).answer, [26, 0, 0]);
            }
        }
    }
}

/// A drive of fewer events is the beginning of one of more.
#[test]
fn every_count() {
    for edition in Edition::ALL {
        let sheet = inputs(3);
        let Outcome { written, .. } = load(edition, &sheet, 1_021, AMPLE);
        let whole = parts(edition, &written).drive;
        let without_events = written.len() - EVENT_BYTES * MOST_EVENTS;
        for n in 0..=1_021 {
            let events = 3 + n as usize;
            let needed = without_events + EVENT_BYTES * events;
            let Outcome { answer, written } = load(edition, &sheet, n, needed);
            assert_eq!(answer, [0, 0, needed as u32], "{n} events");
            let drive = parts(edition, &written).drive;
            assert_eq!(drive[2..], whole[2..2 + EVENT_BYTES * events], "{n} events");
        }
        for n in 1_022..=1_300 {
            assert_eq!(load(edition, &sheet, n, AMPLE).answer, [26, 0, 0]);
        }
    }
}

/// Every section is full, and stays so with 1,023 events for the one input.
#[test]
fn the_longest_sheets() {
    for (edition, longest) in Edition::ALL.into_iter().zip(LONGEST_SHEETS) {
        let mut generator = Generator::of(edition, 8);
        for _ in 0..20 {
            let sheet = generator.longest();
            let bytes = sheet.encode(edition);
            assert_eq!(bytes.len(), longest);
            let Outcome { answer, written } = load(edition, &sheet, 1_023, longest);
            assert_eq!(answer, [0, 0, longest as u32]);
            assert_ne!(written, bytes);
            let short = load(edition, &sheet, 1_023, longest - 1);
            assert_eq!(short.answer, [23, longest as u32, 0]);
            assert_eq!(load(edition, &sheet, 1_024, longest).answer, [26, 0, 0]);
            let least = longest - EVENT_BYTES * 1_023;
            let answer = load(edition, &sheet, 0, least).answer;
            assert_eq!(answer, [0, 0, least as u32]);
        }
    }
}
