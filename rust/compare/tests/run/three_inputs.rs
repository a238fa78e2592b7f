//! Document 02, W-205, by the library: runs of the second edition.

use generate::limits::RECORD_BYTES;
use generate::{room_for_all, runs_by_hand, Generator};
use plain::{read, Edition};

use crate::agreed::{listed_in, proved};

#[test]
fn worked_out_by_hand() {
    let cases = runs_by_hand::cases();
    for case in &cases {
        let records = listed_in(Edition::Second, &case.sheet, case.horizon, case.name);
        assert_eq!(records, case.records, "{}", case.name);
    }
    assert!(cases.len() >= 7, "{} cases", cases.len());
}

/// What the runs of sheets in both editions met.
#[derive(Debug, Default)]
struct Met {
    /// By the answer's number.
    numbers: [u64; 21],
    records: usize,
}

/// A sheet of the first edition, with third inputs of 0, runs to the same answer and listing in the
/// second, whatever the horizon and the buffer. What 19 and 20 leave is the same, too.
#[test]
fn sheets_of_the_first_edition_run_alike() {
    let seed = 47;
    let mut generator = Generator::new(seed);
    let mut met = Met::default();
    for place in 0..20_000 {
        let input = generator.run_input();
        let Ok(sheet) = read(Edition::First, &input.sheet) else {
            continue;
        };
        let all = room_for_all(Edition::First, &input.sheet, input.horizon);
        for length in [all, generator.buffer_length().min(all)] {
            let whence = format!("seed {seed}, run {place}");
            let [first, second] = Edition::ALL.map(|edition| {
                let bytes = sheet.encode(edition);
                proved(edition, &bytes, input.horizon, length, &whence)
            });
            assert!(first == second, "{whence}: {sheet:?}");
            met.numbers[first.answer[0] as usize] += 1;
            met.records += first.listing.len() / RECORD_BYTES;
        }
    }
    println!("{met:?}");
    let Met { numbers, records } = met;
    assert!(numbers[0] >= 10_000 && numbers[19] >= 1_000, "{numbers:?}");
    assert!(numbers[20] >= 100 && records >= 100_000, "{numbers:?}");
}
