//! Generated sheets, good and bad, with widths, listings and reports of every sort.

use compare::{count, seed};
use generate::drivers::has_several_drivers;
use generate::limits::PULSE_BYTES;
use generate::pulses::{shorter, PulsesMet};
use generate::sheets::{pulses, records, Record};
use generate::{assert_met, Generator, PulsesInput, Room};
use plain::Edition;

use crate::agreed::{agreed, Given, Outcome};
use crate::rooms::{needed, rooms, Rooms};

/// A report on which both simulators agree: the answer, and the listing's records. A finished one must be
/// what these records say.
fn reported(
    edition: Edition,
    input: &PulsesInput,
    bytes: [usize; 2],
    whence: &str,
) -> ([u32; 3], Vec<Record>) {
    let given = Given::new(edition, input, bytes);
    let Outcome {
        answer,
        listing,
        report,
    } = agreed(&given, whence);
    let records = records(&listing);
    if answer[0] == 0 {
        let expected = shorter(given.width, &records, given.horizon);
        assert_eq!(pulses(&report), expected, "{whence}: {input:?}");
    }
    (answer, records)
}

/// What a stream of reports met.
#[derive(Debug, Default)]
struct Met {
    /// How often each number was answered; 0 for a finished report.
    numbers: [u64; 26],
    /// How often each sort of report was lent to a run that finishes, and how often it was too short.
    rooms: [[u64; 2]; Room::ALL.len()],
    pulses: PulsesMet,
    /// Finished reports that have a pulse of a sheet with several drivers a node.
    of_several_drivers: u64,
}

impl Met {
    /// Adds a report: its answer's number, its buffer, what it was asked for, and the listing's records.
    fn add(&mut self, number: u32, room: Room, input: &PulsesInput, records: &[Record]) {
        self.numbers[number as usize] += 1;
        let sort = Room::ALL.iter().position(|&sort| sort == room);
        let [lent, too_short] = &mut self.rooms[sort.expect("all sorts are there")];
        *lent += u64::from(number == 0 || number == 25);
        *too_short += u64::from(number == 25);
        if number == 0 {
            self.pulses.add(input.width, records, input.run.horizon);
        }
    }

    /// Adds a finished report with this many pulses.
    fn add_drivers(&mut self, pulses: u32, edition: Edition, input: &PulsesInput) {
        let has_pulse = pulses > 0;
        let is_shared = || {
            let sheet = plain::read(edition, &input.run.sheet);
            sheet.is_ok_and(|sheet| has_several_drivers(&sheet))
        };
        self.of_several_drivers += u64::from(has_pulse && is_shared());
    }

    /// Asserts that everything was met often. A report never meets 9 or 15, nor what other calls answer.
    fn assert_often(&self, whence: &str) {
        assert_met(&self.numbers, 100, &[9, 15, 21, 22, 23], whence);
        assert!(self.of_several_drivers >= 1_000, "{whence}: {self:?}");
        assert!(self.numbers[0] >= 30_000, "{whence}: {self:?}");
        assert!(self.numbers[25] >= 10_000, "{whence}: {self:?}");
        for (room, [lent, too_short]) in Room::ALL.into_iter().zip(self.rooms) {
            assert!(lent >= 5_000, "{whence}, {room:?}: {self:?}");
            match room.is_enough() {
                true => assert_eq!(too_short, 0, "{whence}, {room:?}: {self:?}"),
                false => assert!(too_short >= 1_000, "{whence}, {room:?}: {self:?}"),
            }
        }
        self.pulses.assert_often(3_000, whence);
    }
}

fn generated(edition: Edition) {
    let seed = seed();
    let mut inputs = Generator::of(edition, seed);
    // The buffers have a stream of their own.
    let mut buffers = Generator::new(!seed);
    let mut met = Met::default();
    for place in 0..count(150_000) {
        let input = inputs.pulses_input();
        let Rooms {
            listing,
            report,
            bytes,
        } = rooms(&mut buffers, edition, &input);
        let whence = format!("seed {seed}, report {place}, {listing:?}, {report:?}");
        let (answer, records) = reported(edition, &input, bytes, &whence);
        met.add(answer[0], report, &input, &records);
        if let [0, 0, pulses] = answer {
            met.add_drivers(pulses, edition, &input);
        }
    }
    println!("{edition:?}, seed {seed}: {met:?}");
    met.assert_often(&format!("{edition:?}, seed {seed}"));
}

#[test]
fn generated_reports() {
    generated(Edition::First);
}

#[test]
fn generated_reports_of_the_second_edition() {
    generated(Edition::Second);
}

/// Reports of every length, from none to more than enough.
#[test]
fn every_length() {
    let seed = 63;
    for edition in Edition::ALL {
        let mut generator = Generator::of(edition, seed);
        let mut reports = 0;
        while reports < 5_000 {
            let input = generator.pulses_input();
            let [records, pulses] = needed(edition, &input);
            if !(1..=20).contains(&pulses) {
                continue;
            }
            let listing_bytes = generator.bytes_of(Room::Exact, records);
            for report_bytes in 0..=PULSE_BYTES * (pulses + 1) + 1 {
                let whence = format!("seed {seed}, report {reports}");
                let bytes = [listing_bytes, report_bytes];
                let (answer, _) = reported(edition, &input, bytes, &whence);
                let expected = match report_bytes / PULSE_BYTES >= pulses {
                    true => [0, 0, pulses as u32],
                    false => [25, pulses as u32, records as u32],
                };
                assert_eq!(answer, expected, "{whence}: {report_bytes} bytes");
                reports += 1;
            }
        }
    }
}
