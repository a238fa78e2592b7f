//! Buffers of every sort for a report, seen from what the library needs for all of it.

use generate::{room_for_all, Generator, PulsesInput, Room};
use plain::Edition;

/// How many records the whole listing has, and how many pulses the whole report.
pub fn needed(edition: Edition, input: &PulsesInput) -> [usize; 2] {
    let PulsesInput { run, width } = input;
    let (sheet, horizon) = (&run.sheet, run.horizon);
    let mut listing = vec![0; room_for_all(edition, sheet, horizon)];
    let answer = compare::pulses(edition, sheet, horizon, *width, &mut listing, &mut []);
    let counts = match answer {
        [25, pulses, records] => [records, pulses],
        [0 | 24, ..] => [compare::run(edition, sheet, horizon, &mut listing)[2], 0],
        [.., records] => [records, 0],
    };
    counts.map(|count| count as usize)
}

/// The sorts of both buffers, and their bytes.
pub struct Rooms {
    pub listing: Room,
    pub report: Room,
    pub bytes: [usize; 2],
}

pub fn rooms(generator: &mut Generator, edition: Edition, input: &PulsesInput) -> Rooms {
    let [records, pulses] = needed(edition, input);
    let (listing, report) = (generator.listing_room(), generator.report_room());
    Rooms {
        listing,
        report,
        bytes: [
            generator.bytes_of(listing, records),
            generator.report_bytes_of(report, pulses),
        ],
    }
}
