//! Generated sheets, good and bad, with horizons and buffers of every sort.

use compare::{count, hex, seed};
use generate::drivers::{has_several_drivers, DriversMet};
use generate::ends::{changes, ended, last_end, EndsMet};
use generate::limits::RECORD_BYTES;
use generate::sheets::{records, Record, MEMORY};
use generate::{assert_met, room_for_all, starts_of, Generator, Room, RunInput, Start};
use plain::{Edition, Sheet};

use crate::agreed::{agreed, Outcome};

/// The records that a run would write if it were lent room for all of them.
fn all_records(edition: Edition, input: &RunInput) -> usize {
    let mut listing = vec![0; room_for_all(edition, &input.sheet, input.horizon)];
    let [.., count] = plain::run(edition, &input.sheet, input.horizon, &mut listing).triple();
    count as usize
}

/// What a stream of runs met.
#[derive(Debug, Default)]
struct Met {
    /// How often each number was answered; 0 for a finished run.
    numbers: [u64; 21],
    /// How often each sort of buffer was lent, and how often it was too short.
    rooms: [[u64; 2]; Room::ALL.len()],
    /// Finished runs that list a change after tick 0.
    lively: u64,
    /// Finished runs with an input that is X at first, without an event at tick 0.
    begun_unknown: u64,
    /// Finished runs that list a change and have a module of three inputs.
    of_three: u64,
    ends: EndsMet,
    /// Of finished runs that are not long.
    drivers: DriversMet,
    /// Runs refused by 20 whose sheets have several drivers a node.
    crowded_buses: u64,
}

/// What drivers say is looked at up to this horizon.
const NOT_LONG: u32 = 120;

impl Met {
    /// Adds a run: its answer's number, its buffer, whether it lists a change, and its sheet, if that
    /// is accepted.
    fn add(&mut self, number: u32, room: Room, is_lively: bool, sheet: Option<&Sheet>) {
        let sort = Room::ALL.iter().position(|&sort| sort == room);
        let [lent, too_short] = &mut self.rooms[sort.expect("all sorts are there")];
        self.numbers[number as usize] += 1;
        *lent += 1;
        *too_short += u64::from(number == 19);
        let is_finished = number == 0;
        self.lively += u64::from(is_finished && is_lively);
        self.begun_unknown += u64::from(is_finished && sheet.is_some_and(begins_unknown));
        let of_three = is_lively && sheet.is_some_and(has_third_inputs);
        self.of_three += u64::from(is_finished && of_three);
    }

    /// Adds what the drivers of a sheet's nodes say, where there are several.
    fn add_drivers(&mut self, number: u32, horizon: u32, sheet: &Sheet) {
        if !has_several_drivers(sheet) {
            return;
        }
        self.crowded_buses += u64::from(number == 20);
        if number == 0 && horizon <= NOT_LONG {
            self.drivers.add(sheet, horizon);
        }
    }

    /// Asserts that everything was met often. A run never meets 9 or 15, and only buffers that take the whole
    /// listing are never too short.
    fn assert_often(&self, edition: Edition, seed: u64) {
        assert_met(&self.numbers, 100, &[9, 15], &format!("seed {seed}"));
        assert!(self.numbers[0] >= 30_000, "seed {seed}: {self:?}");
        assert!(self.lively >= 10_000, "seed {seed}: {self:?}");
        assert!(self.begun_unknown >= 10_000, "seed {seed}: {self:?}");
        match edition {
            Edition::First => assert_eq!(self.of_three, 0),
            Edition::Second => assert!(self.of_three >= 10_000, "seed {seed}: {self:?}"),
        }
        self.ends.assert_often(1_000, &format!("seed {seed}"));
        self.drivers.assert_often(500, &format!("seed {seed}"));
        assert!(self.crowded_buses >= 100, "seed {seed}: {self:?}");
        for (room, [lent, too_short]) in Room::ALL.into_iter().zip(self.rooms) {
            let never = room.is_enough();
            assert!(lent >= 10_000, "seed {seed}, {room:?}: {self:?}");
            assert_eq!(too_short == 0, never, "seed {seed}, {room:?}: {self:?}");
        }
    }
}

fn generated(edition: Edition) {
    let seed = seed();
    let mut inputs = Generator::of(edition, seed);
    // The buffers have a stream of their own, so that the program can be given the same inputs.
    let mut buffers = Generator::new(!seed);
    let mut met = Met::default();
    for place in 0..count(150_000) {
        let input = inputs.run_input();
        let room = buffers.room();
        let length = buffers.bytes_of(room, all_records(edition, &input));
        let whence = format!("seed {seed}, run {place}, {room:?}");
        let Outcome { answer, listing } =
            agreed(edition, &input.sheet, input.horizon, length, &whence);
        let records = records(&listing);
        // Every end is read back from the records themselves.
        let read_back = ended(&changes(&records), last_end(answer, input.horizon));
        assert!(records == read_back, "{whence}: {}", hex(&input.sheet));
        met.ends.add(answer, input.horizon, &records);
        let sheet = plain::read(edition, &input.sheet).ok();
        met.add(answer[0], room, has_change(&records), sheet.as_ref());
        if let Some(sheet) = &sheet {
            met.add_drivers(answer[0], input.horizon, sheet);
        }
    }
    println!("{edition:?}, seed {seed}: {met:?}");
    met.assert_often(edition, seed);
}

#[test]
fn generated_runs() {
    generated(Edition::First);
}

#[test]
fn generated_runs_of_the_second_edition() {
    generated(Edition::Second);
}

/// Whether a record stands at a tick above 0.
fn has_change(records: &[Record]) -> bool {
    records.last().is_some_and(|&(tick, ..)| tick > 0)
}

/// Whether an input of the sheet has no event at tick 0.
fn begins_unknown(sheet: &Sheet) -> bool {
    starts_of(sheet).iter().any(|&start| start != Start::AtOnce)
}

/// Whether a module of the sheet has three inputs.
fn has_third_inputs(sheet: &Sheet) -> bool {
    sheet.modules.iter().any(|module| module.kind > MEMORY)
}

/// Buffers of every length, from none to more than enough.
#[test]
fn every_length() {
    let seed = 4;
    for edition in Edition::ALL {
        let mut generator = Generator::of(edition, seed);
        let mut runs = 0;
        while runs < 5_000 {
            let input = generator.run_input();
            let records = all_records(edition, &input);
            if (1..=30).contains(&records) {
                for length in 0..=RECORD_BYTES * (records + 1) + 1 {
                    let whence = format!("seed {seed}, run {runs}");
                    agreed(edition, &input.sheet, input.horizon, length, &whence);
                    runs += 1;
                }
            }
        }
    }
}
