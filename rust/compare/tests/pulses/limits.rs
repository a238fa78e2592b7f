//! The longest reports, the last horizon, and all nodes watched.

use generate::limits::{LAST_HORIZON, MOST_NODES, PULSE_BYTES, RECORD_BYTES};
use generate::sheets::*;
use plain::{worked_run, Edition, Sheet, LOW};

use crate::agreed::{agreed, Given, Outcome};

/// A report over a listing of so many records, into room for so many pulses, a byte more and a byte less.
fn report(sheet: &Sheet, horizon: u32, width: u32, records: u32, count: u32) -> Vec<Pulse> {
    let needed = PULSE_BYTES * count as usize;
    let mut reports = Edition::ALL.map(|edition| {
        let sheet = sheet.encode(edition);
        let into = |report_bytes| {
            let given = Given {
                edition,
                sheet: &sheet,
                horizon,
                width,
                listing_bytes: RECORD_BYTES * records as usize,
                report_bytes,
            };
            agreed(&given, "at a limit")
        };
        assert_eq!(into(needed - 1).answer, [25, count, records]);
        let Outcome { answer, report, .. } = into(needed + 1);
        assert_eq!(answer, [0, 0, count]);
        pulses(&report)
    });
    assert!(reports[0] == reports[1], "{sheet:?}");
    std::mem::take(&mut reports[0])
}

/// From tick 8 on the NAND changes every third tick, 333,330 more times up to tick 999,998: each change but
/// the last starts a pulse of three ticks.
#[test]
fn the_last_horizon() {
    let sheet = worked_run::sheet();
    let reported = report(&sheet, LAST_HORIZON, 4, 333_335, 333_330);
    let starts = (8..).step_by(3);
    let expected = starts.map(|start| (start, 1, 3)).take(333_330);
    assert!(expected.eq(reported.iter().copied()));
    assert_eq!(reported.last(), Some(&(999_995, 1, 3)));
}

/// 256 inverters, each onto its own input, change at every tick: up to horizon 400 each has 398 pulses.
#[test]
fn all_nodes_watched() {
    let nodes = 0..=u8::MAX;
    let modules: Vec<_> = nodes
        .clone()
        .map(|node| gate(INVERTER, [node], node, 1))
        .collect();
    let watched: Vec<u8> = nodes.clone().collect();
    let sheet = sheet(&[LOW; MOST_NODES], &modules, &[], &watched);
    let reported = report(&sheet, 400, 2, 256 * 400, 256 * 398);
    let at = |tick: u32| nodes.clone().map(move |node| (tick, node, 1));
    assert!((1..=398).flat_map(at).eq(reported));
}

/// As long as the longest width, a tick longer and a tick shorter, on many nodes and to the last horizon:
/// node n has a pulse of 9,999, 10,000 and 10,001 ticks in turn.
#[test]
fn about_the_longest_width() {
    let lengths = [9_999, 10_000, 10_001];
    let node_count = 12;
    let mut drive: Vec<Change> = Vec::new();
    for node in 0..node_count {
        let start = 900_000 + 1_000 * u32::from(node);
        let end = start + lengths[usize::from(node) % 3];
        drive.extend([(0, node, 0), (start, node, 3), (end, node, 2)]);
    }
    drive.sort_unstable();
    let nodes: Vec<u8> = (0..node_count).collect();
    let sheet = sheet(&vec![plain::INPUT; nodes.len()], &[], &drive, &nodes);
    let reported = report(&sheet, LAST_HORIZON, 10_000, 36, 4);
    let expected = [(900_000, 0), (903_000, 3), (906_000, 6), (909_000, 9)];
    assert_eq!(reported, expected.map(|(start, node)| (start, node, 9_999)));
}
