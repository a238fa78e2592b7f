//! Document 02's W-204: runs whose records are worked out by hand, with every end.

use plain::{Sheet, HIGH, INPUT, LOW};

use crate::limits::{LAST_HORIZON, RECORD_BYTES};
use crate::shared::{four_buffers, toggled};
use crate::sheets::*;

/// A run, what it answers, and the records that it leaves.
pub struct Case {
    pub name: &'static str,
    pub sheet: Sheet,
    pub horizon: u32,
    pub bytes: usize,
    pub answer: [u32; 3],
    pub records: Vec<Record>,
}

pub fn cases() -> Vec<Case> {
    [horizons(), rooms(), crowds(), events()]
        .into_iter()
        .flatten()
        .collect()
}

/// A run with more room than it needs, which finishes.
pub(crate) fn finished(name: &'static str, sheet: Sheet, horizon: u32, records: &[Record]) -> Case {
    Case {
        name,
        sheet,
        horizon,
        bytes: RECORD_BYTES * (records.len() + 1),
        answer: [0, 0, records.len() as u32],
        records: records.to_vec(),
    }
}

/// An input that is high at tick 4 alone, and a buffer that follows it three ticks later.
fn pulse() -> Sheet {
    let drive = [(0, 0, LOW), (4, 0, HIGH), (5, 0, LOW)];
    let modules = [gate(BUFFER, [0, 0], 1, 3)];
    sheet(&[INPUT, LOW], &modules, &drive, &[0, 1])
}

/// A change that falls on the horizon is not seen, whether an event or a module's.
fn horizons() -> Vec<Case> {
    let to = |name, horizon, records: &[Record]| finished(name, pulse(), horizon, records);
    vec![
        to("one tick", 1, &[(0, 0, 0, 1), (0, 1, 0, 1)]),
        to("an event at the horizon", 4, &[(0, 0, 0, 4), (0, 1, 0, 4)]),
        to(
            "an event at the last tick, the next at the horizon",
            5,
            &[(0, 0, 0, 4), (0, 1, 0, 5), (4, 0, 1, 5)],
        ),
        to(
            "a change at the horizon",
            7,
            &[(0, 0, 0, 4), (0, 1, 0, 7), (4, 0, 1, 5), (5, 0, 0, 7)],
        ),
        to(
            "a change at the last tick, the next at the horizon",
            8,
            &[
                (0, 0, 0, 4),
                (0, 1, 0, 7),
                (4, 0, 1, 5),
                (5, 0, 0, 8),
                (7, 1, 1, 8),
            ],
        ),
        to(
            "a change at the last tick, and no more",
            9,
            &[
                (0, 0, 0, 4),
                (0, 1, 0, 7),
                (4, 0, 1, 5),
                (5, 0, 0, 9),
                (7, 1, 1, 8),
                (8, 1, 0, 9),
            ],
        ),
    ]
}

/// The same run to horizon 10, which has six records, with less and less room.
fn rooms() -> Vec<Case> {
    let in_bytes = |name, bytes, tick, records: &[Record]| Case {
        name,
        sheet: pulse(),
        horizon: 10,
        bytes,
        answer: [19, tick, records.len() as u32],
        records: records.to_vec(),
    };
    vec![
        in_bytes(
            "a change at the refused tick",
            59,
            8,
            &[
                (0, 0, 0, 4),
                (0, 1, 0, 7),
                (4, 0, 1, 5),
                (5, 0, 0, 8),
                (7, 1, 1, 8),
            ],
        ),
        in_bytes(
            "a change at the refused tick, before it a long value",
            49,
            7,
            &[(0, 0, 0, 4), (0, 1, 0, 7), (4, 0, 1, 5), (5, 0, 0, 7)],
        ),
        in_bytes(
            "a change after the refused tick",
            39,
            5,
            &[(0, 0, 0, 4), (0, 1, 0, 5), (4, 0, 1, 5)],
        ),
        in_bytes(
            "tick 0 alone has room",
            20,
            4,
            &[(0, 0, 0, 4), (0, 1, 0, 4)],
        ),
        in_bytes("tick 0 has none", 19, 0, &[]),
    ]
}

/// Tick 1,023 of the input that [`toggled`] drives leaves 4,097 changes pending. Nodes 0 and 1 are
/// watched: the input, which changes at every tick, and a buffer that is low up to tick 4,999.
fn crowds() -> Vec<Case> {
    let mut modules = four_buffers();
    modules.push(constant(HIGH, 5, 5_000));
    let mut sheet = toggled(&modules);
    sheet.watched = vec![0, 1];
    let listed = |ticks: u32| {
        let value = |tick: u32| u8::from(tick.is_multiple_of(2));
        let each_tick = (0..ticks).map(|tick| (tick, 0, value(tick), tick + 1));
        let mut records: Vec<Record> = each_tick.collect();
        records.insert(1, (0, 1, LOW, ticks));
        records
    };
    let in_room_for = |name, room, answer, ticks| Case {
        name,
        sheet: sheet.clone(),
        horizon: 10_000,
        bytes: RECORD_BYTES * room,
        answer,
        records: listed(ticks),
    };
    vec![
        in_room_for("too crowded", 1_026, [20, 1_023, 1_025], 1_024),
        in_room_for(
            "too crowded, the last record just fits",
            1_025,
            [20, 1_023, 1_025],
            1_024,
        ),
        in_room_for(
            "no room comes before too crowded",
            1_024,
            [19, 1_023, 1_024],
            1_023,
        ),
    ]
}

/// One input.
fn input(drive: &[Change]) -> Sheet {
    sheet(&[INPUT], &[], drive, &[0])
}

fn events() -> Vec<Case> {
    vec![
        finished(
            "an event that changes nothing ends nothing",
            input(&[(0, 0, 1), (3, 0, 1), (5, 0, 3), (6, 0, 3)]),
            8,
            &[(0, 0, 1, 5), (5, 0, 3, 8)],
        ),
        finished("never begun", input(&[]), 70_000, &[(0, 0, 2, 70_000)]),
        // 658,188 has three different bytes, and so has 1,000,000.
        finished(
            "the low byte first",
            input(&[(0, 0, 0), (658_188, 0, 1)]),
            LAST_HORIZON,
            &[(0, 0, 0, 658_188), (658_188, 0, 1, 1_000_000)],
        ),
        finished(
            "the last tick of the last horizon",
            input(&[(0, 0, 0), (999_999, 0, 1)]),
            LAST_HORIZON,
            &[(0, 0, 0, 999_999), (999_999, 0, 1, 1_000_000)],
        ),
    ]
}
