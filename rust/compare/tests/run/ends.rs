//! Document 02, W-204, by the library: the end of each value, however the run ends.

use generate::ends::{before, last_records};
use generate::limits::RECORD_BYTES;
use generate::sheets::{records, Record};
use generate::{ends_by_hand, room_for_all, Generator, RunInput, Size};
use plain::{read, Edition, Sheet};

use crate::agreed::{agreed, listed_by_hand, listed_in, proved, Outcome};

/// Where lively sheets have done what they do.
const HORIZON: u32 = 60;

/// The next lively sheet that has many records, and those up to [`HORIZON`].
fn lively(edition: Edition, generator: &mut Generator) -> (Sheet, Vec<Record>) {
    loop {
        let sheet = generator.lively(Size::Small);
        let records = listed_in(edition, &sheet, HORIZON, "lively");
        if (50..=300).contains(&records.len()) {
            return (sheet, records);
        }
    }
}

/// Asserts what the library answers and leaves in so many bytes.
fn leaves(
    edition: Edition,
    sheet: &Sheet,
    horizon: u32,
    bytes: usize,
    answer: [u32; 3],
    expected: &[Record],
) {
    let outcome = proved(edition, &sheet.encode(edition), horizon, bytes, "ends");
    assert_eq!(outcome.answer, answer, "horizon {horizon}: {sheet:?}");
    let left = records(&outcome.listing);
    assert_eq!(
        left, expected,
        "horizon {horizon}, {bytes} bytes: {sheet:?}"
    );
}

#[test]
fn worked_out_by_hand() {
    let cases = ends_by_hand::cases();
    cases.iter().for_each(listed_by_hand);
    assert!(cases.len() >= 18, "{} cases", cases.len());
}

/// In every buffer that is too short, and so at every tick that has records: those of the ticks
/// before are there and end at the refused tick at the latest. No other byte is touched.
#[test]
fn no_room_at_each_tick_in_turn() {
    for edition in Edition::ALL {
        let mut generator = Generator::of(edition, 43);
        let mut ticks = 0;
        for _ in 0..40 {
            let (sheet, all) = lively(edition, &mut generator);
            let mut last = None;
            for bytes in 0..RECORD_BYTES * all.len() {
                let (tick, ..) = all[bytes / RECORD_BYTES];
                let earlier = before(tick, &all);
                let answer = [19, tick, earlier.len() as u32];
                leaves(edition, &sheet, HORIZON, bytes, answer, &earlier);
                ticks += u32::from(last.replace(tick) != Some(tick));
            }
        }
        println!("{ticks} ticks were refused");
        assert!(ticks >= 1_000, "{ticks} ticks were refused");
    }
}

/// No end looks past the horizon: a run to any of them lists what the longest run does before it. A
/// change at the horizon itself is not seen.
#[test]
fn each_horizon_in_turn() {
    for edition in Edition::ALL {
        let mut generator = Generator::of(edition, 44);
        let [mut at_horizon, mut at_last_tick] = [0; 2];
        for _ in 0..200 {
            let (sheet, all) = lively(edition, &mut generator);
            let changes_at = |tick| all.iter().any(|record| record.0 == tick);
            for horizon in 1..HORIZON {
                let expected = before(horizon, &all);
                let bytes = RECORD_BYTES * expected.len();
                let answer = [0, 0, expected.len() as u32];
                leaves(edition, &sheet, horizon, bytes, answer, &expected);
                at_horizon += u32::from(changes_at(horizon));
                at_last_tick += u32::from(horizon > 1 && changes_at(horizon - 1));
            }
        }
        println!("{at_horizon} runs with a change at the horizon, {at_last_tick} at the last tick");
        assert!(at_horizon >= 2_000 && at_last_tick >= 2_000);
    }
}

/// After 20 each watched node's last value ends at the tick after, also where the refused tick lists
/// it. A run that has its horizon there leaves the same.
#[test]
fn too_crowded_with_values_lasting() {
    for edition in Edition::ALL {
        let mut generator = Generator::of(edition, 45);
        let [mut fresh, mut older] = [0; 2];
        for _ in 0..400 {
            let RunInput { sheet, horizon } = generator.crowded();
            let all = room_for_all(edition, &sheet, horizon);
            let Outcome { answer, listing } = agreed(edition, &sheet, horizon, all, "crowded");
            let [20, tick, count] = answer else {
                continue;
            };
            let records = records(&listing);
            let sheet = read(edition, &sheet).expect("crowded sheets are accepted");
            let last = last_records(&sheet.watched, &records);
            assert!(last.iter().all(|record| record.3 == tick + 1), "{last:?}");
            leaves(
                edition,
                &sheet,
                tick + 1,
                listing.len(),
                [0, 0, count],
                &records,
            );
            let of_tick = last.iter().filter(|record| record.0 == tick).count();
            fresh += of_tick;
            older += last.len() - of_tick;
        }
        println!("values that lasted: {fresh} of the refused tick, {older} older ones");
        assert!(fresh >= 50 && older >= 50, "{fresh} and {older}");
    }
}
