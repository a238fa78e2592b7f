//! Document 02's W-208, pulses too short for a coil, seen from a listing's records alone.

use plain::{NONE, UNKNOWN};

use crate::assert_met;
use crate::sheets::{Pulse, Record};

/// The pulses of a whole listing, whatever their lengths, each with its value: the records after tick 0
/// that a change below the horizon ends.
pub fn of_records(records: &[Record], horizon: u32) -> Vec<(Pulse, u8)> {
    let is_pulse = |&&(tick, .., end): &&Record| tick > 0 && end < horizon;
    let pulses = records.iter().filter(is_pulse);
    pulses
        .map(|&(tick, node, value, end)| ((tick, node, end - tick), value))
        .collect()
}

/// What is to be reported of a whole listing, in its order.
pub fn shorter(width: u32, records: &[Record], horizon: u32) -> Vec<Pulse> {
    let pulses = of_records(records, horizon).into_iter();
    let short = pulses.filter(|&((.., length), _)| length < width);
    short.map(|(pulse, _)| pulse).collect()
}

/// How often finished reports met what is easily wrong by one.
#[derive(Debug, Default)]
pub struct PulsesMet {
    /// Reports that have a pulse a tick shorter than the width.
    tick_shorter: u64,
    /// Those of a run that has one as long as the width.
    as_long: u64,
    /// Those of a run that has one a tick longer.
    tick_longer: u64,
    /// Pulses that start at tick 1.
    from_tick_1: u64,
    /// Pulses that the last tick below the horizon ends.
    to_last_tick: u64,
    /// Pulses of X.
    unknown: u64,
    /// Pulses of Z.
    none: u64,
    /// Pulses that start at the tick of the one before, on another node.
    together: u64,
    /// Short stretches that a change ends but that start at tick 0, and so are no pulses.
    first_stretches: u64,
    /// Short stretches that start later but last up to the horizon, and so are none.
    last_stretches: u64,
}

impl PulsesMet {
    /// Adds a finished report of a run with these records.
    pub fn add(&mut self, width: u32, records: &[Record], horizon: u32) {
        let pulses = of_records(records, horizon);
        let has = |wanted: u32| u64::from(pulses.iter().any(|&((.., length), _)| length == wanted));
        self.tick_shorter += has(width - 1);
        self.as_long += has(width);
        self.tick_longer += has(width + 1);
        for ((start, _, length), value) in pulses {
            let is_short = length < width;
            self.from_tick_1 += u64::from(is_short && start == 1);
            self.to_last_tick += u64::from(is_short && start + length == horizon - 1);
            self.unknown += u64::from(is_short && value == UNKNOWN);
            self.none += u64::from(is_short && value == NONE);
        }
        let report = shorter(width, records, horizon);
        let pairs = report.windows(2);
        self.together += pairs.filter(|pair| pair[0].0 == pair[1].0).count() as u64;
        for &(tick, .., end) in records {
            let is_short = end - tick < width;
            self.first_stretches += u64::from(is_short && tick == 0 && end < horizon);
            self.last_stretches += u64::from(is_short && tick > 0 && end == horizon);
        }
    }

    /// Asserts that everything was met at least so often.
    pub fn assert_often(&self, least: u64, whence: &str) {
        let met = [
            self.tick_shorter,
            self.as_long,
            self.tick_longer,
            self.from_tick_1,
            self.to_last_tick,
            self.unknown,
            self.none,
            self.together,
            self.first_stretches,
            self.last_stretches,
        ];
        assert_met(&met, least, &[], &format!("{whence}: {self:?}"));
    }
}
