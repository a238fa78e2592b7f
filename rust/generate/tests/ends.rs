//! Document 02, W-204, over many runs of the plain simulator: the end of each value, however the run
//! ends.

use generate::ends::{before, changes, ended, last_end, last_records, EndsMet};
use generate::limits::RECORD_BYTES;
use generate::sheets::{records, Record};
use generate::{room_for_all, Generator, RunInput, Size};
use plain::{read, Edition, Sheet};

/// The byte that stands where nothing has been written.
const UNTOUCHED: u8 = 0xA5;

/// Where lively sheets have done what they do.
const HORIZON: u32 = 60;

/// A run's answer, and the records that it left.
type Outcome = ([u32; 3], Vec<Record>);

/// A run in a buffer of so many bytes. Those past its records must be untouched.
fn run(edition: Edition, sheet: &[u8], horizon: u32, bytes: usize) -> Outcome {
    let mut listing = vec![UNTOUCHED; bytes];
    let answer = plain::run(edition, sheet, horizon, &mut listing).triple();
    let (written, rest) = listing.split_at(RECORD_BYTES * answer[2] as usize);
    assert!(rest.iter().all(|&byte| byte == UNTOUCHED), "{answer:?}");
    (answer, records(written))
}

/// A run with room for every record that there can be.
fn with_room(edition: Edition, sheet: &[u8], horizon: u32) -> Outcome {
    run(
        edition,
        sheet,
        horizon,
        room_for_all(edition, sheet, horizon),
    )
}

/// What a run that finishes comes to.
fn finished(records: Vec<Record>) -> Outcome {
    ([0, 0, records.len() as u32], records)
}

/// The next lively sheet that has records at many ticks, and its records up to [`HORIZON`].
fn lively(edition: Edition, generator: &mut Generator) -> (Sheet, Vec<Record>) {
    loop {
        let sheet = generator.lively(Size::Small);
        let (answer, records) = with_room(edition, &sheet.encode(edition), HORIZON);
        if answer[0] == 0 && (50..=300).contains(&records.len()) {
            return (sheet, records);
        }
    }
}

/// Every end is read back from the records themselves, also where the run is refused.
#[test]
fn every_way_to_end_is_met() {
    for edition in Edition::ALL {
        let mut generator = Generator::of(edition, 41);
        let mut met = EndsMet::default();
        for place in 0..20_000 {
            let RunInput { sheet, horizon } = generator.run_input();
            let (_, all) = with_room(edition, &sheet, horizon);
            let room = generator.room();
            let bytes = generator.bytes_of(room, all.len());
            let (answer, records) = run(edition, &sheet, horizon, bytes);
            let read_back = ended(&changes(&records), last_end(answer, horizon));
            assert_eq!(records, read_back, "run {place}: {answer:?}");
            met.add(answer, horizon, &records);
        }
        println!("{edition:?}: {met:?}");
        met.assert_often(100, "plain");
    }
}

/// In the cells, a value lasts from its record's tick up to the end and has gone there.
#[test]
fn the_cells_between_a_tick_and_its_end() {
    for edition in Edition::ALL {
        let mut generator = Generator::of(edition, 42);
        for _ in 0..200 {
            let (sheet, records) = lively(edition, &mut generator);
            let cells = plain::cells(&sheet, HORIZON);
            for (tick, node, value, end) in records {
                let timeline = &cells[usize::from(node)];
                let (lasting, later) = timeline.split_at(end as usize);
                let lasting = &lasting[tick as usize..];
                assert!(!lasting.is_empty() && lasting.iter().all(|&cell| cell == value));
                assert_ne!(later.first(), Some(&value), "node {node}, tick {tick}");
            }
        }
    }
}

/// In every buffer that is too short, and so at every tick that has records: those of the ticks
/// before are there and end at the refused tick at the latest.
#[test]
fn no_room_at_each_tick_in_turn() {
    for edition in Edition::ALL {
        let mut generator = Generator::of(edition, 43);
        let mut ticks = 0;
        for _ in 0..10 {
            let (sheet, all) = lively(edition, &mut generator);
            let mut last = None;
            for bytes in 0..RECORD_BYTES * all.len() {
                let (tick, ..) = all[bytes / RECORD_BYTES];
                let earlier = before(tick, &all);
                let outcome = run(edition, &sheet.encode(edition), HORIZON, bytes);
                let expected = ([19, tick, earlier.len() as u32], earlier);
                assert_eq!(outcome, expected, "{bytes} bytes: {sheet:?}");
                ticks += u32::from(last.replace(tick) != Some(tick));
            }
        }
        println!("{ticks} ticks were refused");
        assert!(ticks >= 200, "{ticks} ticks were refused");
    }
}

/// No end looks past the horizon: a run to any of them lists what the longest run does before it. A
/// change at the horizon itself is not seen.
#[test]
fn each_horizon_in_turn() {
    for edition in Edition::ALL {
        let mut generator = Generator::of(edition, 44);
        let [mut at_horizon, mut at_last_tick] = [0; 2];
        for _ in 0..100 {
            let (sheet, all) = lively(edition, &mut generator);
            let changes_at = |tick| all.iter().any(|record| record.0 == tick);
            for horizon in 1..HORIZON {
                let outcome = with_room(edition, &sheet.encode(edition), horizon);
                let expected = finished(before(horizon, &all));
                assert_eq!(outcome, expected, "horizon {horizon}: {sheet:?}");
                at_horizon += u32::from(changes_at(horizon));
                at_last_tick += u32::from(horizon > 1 && changes_at(horizon - 1));
            }
        }
        println!("{at_horizon} runs with a change at the horizon, {at_last_tick} at the last tick");
        assert!(at_horizon >= 1_000 && at_last_tick >= 1_000);
    }
}

/// What crowded runs met of values that still lasted when their tick was refused.
#[derive(Debug, Default)]
struct Lasting {
    /// Those that the refused tick itself lists.
    fresh: u32,
    /// Older ones.
    older: u32,
    /// Those that would last longer than the tick after, which is not looked at.
    longer: u32,
}

impl Lasting {
    fn add(&mut self, cells: &[Vec<u8>], tick: u32, last: &[Record]) {
        for &(from, node, value, _) in last {
            let next = cells[usize::from(node)].get(tick as usize + 1);
            self.fresh += u32::from(from == tick);
            self.older += u32::from(from < tick);
            self.longer += u32::from(next == Some(&value));
        }
    }
}

/// After 20 each watched node's last value ends at the tick after, as in a run that has its horizon
/// there.
#[test]
fn too_crowded_with_values_lasting() {
    for edition in Edition::ALL {
        let mut generator = Generator::of(edition, 45);
        let mut met = Lasting::default();
        for _ in 0..400 {
            let RunInput { sheet, horizon } = generator.crowded();
            let ([20, tick, _], records) = with_room(edition, &sheet, horizon) else {
                continue;
            };
            assert_eq!(
                with_room(edition, &sheet, tick + 1),
                finished(records.clone())
            );
            let sheet = read(edition, &sheet).expect("crowded sheets are accepted");
            let last = last_records(&sheet.watched, &records);
            assert!(last.iter().all(|record| record.3 == tick + 1), "{last:?}");
            met.add(&plain::cells(&sheet, horizon), tick, &last);
        }
        println!("{met:?}");
        let Lasting {
            fresh,
            older,
            longer,
        } = met;
        assert!(fresh >= 50 && older >= 50 && longer >= 50, "{met:?}");
    }
}
