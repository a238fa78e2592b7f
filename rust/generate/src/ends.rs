//! Document 02's W-204, the end of each value, seen from a listing's records alone.

use std::mem;

use crate::assert_met;
use crate::limits::MOST_NODES;
use crate::sheets::{Change, Record};

/// Where values that still last end: at the horizon, at the tick that 19 refuses, or at the one
/// after the tick that 20 refuses.
pub fn last_end([number, place, _]: [u32; 3], horizon: u32) -> u32 {
    match number {
        19 => place,
        20 => place + 1,
        _ => horizon,
    }
}

/// The records without their ends.
pub fn changes(records: &[Record]) -> Vec<Change> {
    let change = |&(tick, node, value, _): &Record| (tick, node, value);
    records.iter().map(change).collect()
}

/// The changes, which rise by tick, with their ends: the next change of the same node, else `last`.
pub fn ended(changes: &[Change], last: u32) -> Vec<Record> {
    let mut ends = [last; MOST_NODES];
    let with_end = |&(tick, node, value): &Change| {
        let end = mem::replace(&mut ends[usize::from(node)], tick);
        (tick, node, value, end)
    };
    let mut records: Vec<Record> = changes.iter().rev().map(with_end).collect();
    records.reverse();
    records
}

/// What a whole listing comes to if no tick from `tick` on is seen: a run to that horizon, or one
/// that finds no room there.
pub fn before(tick: u32, records: &[Record]) -> Vec<Record> {
    let earlier = records.iter().filter(|record| record.0 < tick);
    earlier
        .map(|&(from, node, value, end)| (from, node, value, end.min(tick)))
        .collect()
}

/// The last record of each watched node.
pub fn last_records(watched: &[u8], records: &[Record]) -> Vec<Record> {
    let last = |&node: &u8| {
        let record = records.iter().rfind(|record| record.1 == node);
        *record.expect("a watched node has a record at tick 0")
    };
    watched.iter().map(last).collect()
}

/// How often values ended in each way, and where an end is easily wrong by one.
#[derive(Debug, Default)]
pub struct EndsMet {
    by_change: u64,
    by_horizon: u64,
    /// At the tick that 19 refuses.
    by_no_room: u64,
    /// At the tick after the one that 20 refuses.
    by_crowd: u64,
    /// By a change, after one tick.
    one_tick: u64,
    /// Changes at the last tick below the horizon.
    last_tick: u64,
}

impl EndsMet {
    /// Adds the records of a run with this answer.
    pub fn add(&mut self, answer: [u32; 3], horizon: u32, records: &[Record]) {
        let last = last_end(answer, horizon);
        for &(tick, .., end) in records {
            match (end == last, answer[0]) {
                (false, _) => self.by_change += 1,
                (true, 19) => self.by_no_room += 1,
                (true, 20) => self.by_crowd += 1,
                (true, _) => self.by_horizon += 1,
            }
            self.one_tick += u64::from(end < last && end == tick + 1);
            self.last_tick += u64::from(tick > 0 && end == horizon && tick == horizon - 1);
        }
    }

    /// Asserts that everything was met at least so often.
    pub fn assert_often(&self, least: u64, whence: &str) {
        let met = [
            self.by_change,
            self.by_horizon,
            self.by_no_room,
            self.by_crowd,
            self.one_tick,
            self.last_tick,
        ];
        assert_met(&met, least, &[], &format!("{whence}: {self:?}"));
    }
}
