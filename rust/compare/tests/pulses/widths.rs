//! Every width over one run, and reports of every length.

use generate::limits::{GREATEST_WIDTH, PULSE_BYTES};
use generate::sheets::{pulses, sheet, Change, Pulse};
use plain::{Edition, HIGH, INPUT, LOW};

use crate::agreed::{agreed, Given, Outcome};

/// Pulses of each length from 1 to 11, in no order, after a first stretch of 2 ticks.
const LENGTHS: [u32; 11] = [7, 1, 11, 4, 2, 9, 3, 10, 6, 5, 8];

/// The pulses of an input with these lengths, and the tick at which the last one ends.
fn pulses_of_lengths() -> (Vec<Pulse>, u32) {
    let mut start = 2;
    let mut pulses = Vec::new();
    for length in LENGTHS {
        pulses.push((start, 0, length));
        start += length;
    }
    (pulses, start)
}

/// An input that is low at first and changes wherever a pulse starts or ends.
fn input(pulses: &[Pulse], end: u32) -> Vec<Change> {
    let starts = pulses.iter().map(|&(start, ..)| start);
    let ticks = [0].into_iter().chain(starts).chain([end]);
    let values = [LOW, HIGH].into_iter().cycle();
    ticks
        .zip(values)
        .map(|(tick, value)| (tick, 0, value))
        .collect()
}

#[test]
fn every_width_over_one_run() {
    let (all, end) = pulses_of_lengths();
    let sheet = sheet(&[INPUT], &[], &input(&all, end), &[0]);
    for edition in Edition::ALL {
        let sheet = sheet.encode(edition);
        let report = |width, report_bytes| {
            let given = Given {
                edition,
                sheet: &sheet,
                horizon: end + 1,
                width,
                listing_bytes: 130,
                report_bytes,
            };
            agreed(&given, "every width")
        };
        for width in (1..=12).chain([13, GREATEST_WIDTH - 1, GREATEST_WIDTH]) {
            let short: Vec<Pulse> = all
                .iter()
                .copied()
                .filter(|pulse| pulse.2 < width)
                .collect();
            // Each length is there once.
            let count = short.len() as u32;
            assert_eq!(count, (width - 1).min(11));
            for report_bytes in 0..=PULSE_BYTES * 12 {
                let Outcome { answer, report, .. } = report(width, report_bytes);
                if report_bytes < PULSE_BYTES * short.len() {
                    assert_eq!(answer, [25, count, 13], "{width}, {report_bytes} bytes");
                } else {
                    assert_eq!(answer, [0, 0, count], "{width}, {report_bytes} bytes");
                    assert_eq!(pulses(&report), short);
                }
            }
        }
        for width in [0, GREATEST_WIDTH + 1, 65_536, 65_537, u32::MAX] {
            for report_bytes in [0, 1, PULSE_BYTES, PULSE_BYTES * 12] {
                assert_eq!(report(width, report_bytes).answer, [24, 0, 0], "{width}");
            }
        }
    }
}
