//! Lengths of the buffers that runs and reports are lent, seen from the records of all that there is to
//! write.

use plain::Edition;

use crate::limits::{LAST_HORIZON, PULSE_BYTES, RECORD_BYTES};
use crate::Generator;

#[derive(Debug, Clone, Copy, PartialEq, Eq)]
pub enum Room {
    /// No byte at all.
    Empty,
    /// The whole listing or report and nothing more.
    Exact,
    ByteShort,
    RecordShort,
    ByteLong,
    /// Far more than the whole.
    Ample,
    /// Anything up to a little more than the whole.
    Any,
}

impl Room {
    pub const ALL: [Room; 7] = [
        Room::Empty,
        Room::Exact,
        Room::ByteShort,
        Room::RecordShort,
        Room::ByteLong,
        Room::Ample,
        Room::Any,
    ];

    /// Whether such a buffer takes the whole, whatever that is.
    pub fn is_enough(self) -> bool {
        matches!(self, Room::Exact | Room::ByteLong | Room::Ample)
    }
}

impl Generator {
    /// Any sort of buffer, those that take the whole more often.
    pub fn room(&mut self) -> Room {
        if self.random.chance(30) {
            self.random.pick(&[Room::Exact, Room::Ample])
        } else {
            self.random.pick(&Room::ALL)
        }
    }

    /// The bytes of such a buffer for a listing of so many records.
    pub fn bytes_of(&mut self, room: Room, records: usize) -> usize {
        self.bytes_of_records(room, RECORD_BYTES, records)
    }

    /// The bytes of such a buffer for a report of so many pulses.
    pub fn report_bytes_of(&mut self, room: Room, pulses: usize) -> usize {
        self.bytes_of_records(room, PULSE_BYTES, pulses)
    }

    fn bytes_of_records(&mut self, room: Room, record_bytes: usize, records: usize) -> usize {
        let exact = record_bytes * records;
        match room {
            Room::Empty => 0,
            Room::Exact => exact,
            Room::ByteShort => exact.saturating_sub(1),
            Room::RecordShort => exact.saturating_sub(record_bytes),
            Room::ByteLong => exact + 1,
            Room::Ample => exact + self.random.pick(&[100, 1_001, 60_000]),
            Room::Any => self.random.between(0, exact + 2 * record_bytes),
        }
    }
}

/// The bytes that every listing of the sheet fits into: a record for each watched node at each
/// tick. Nothing, where the run is refused before its first tick.
pub fn room_for_all(edition: Edition, sheet: &[u8], horizon: u32) -> usize {
    let watched = plain::read(edition, sheet).map_or(0, |sheet| sheet.watched.len());
    let ticks = if horizon > LAST_HORIZON { 0 } else { horizon };
    RECORD_BYTES * watched * ticks as usize
}
