//! What a lane shows is what the listing has: read back from its lines, boxes and blocks.

use generate::sheets::{constant, sheet};
use generate::Generator;
use plain::{Edition, HIGH, INPUT, LOW, NONE, UNKNOWN};
use timing::Level;

use crate::diagram::Stretch;
use crate::finished::Finished;
use crate::shown::{picture, same};

fn stretch((from, to, value): (u32, u32, Level)) -> Stretch {
    let value = Some(value);
    Stretch { from, to, value }
}

#[test]
fn the_worked_run() {
    let shown = same(&Finished::worked(), 0, 12, "the worked run");
    let expected = [
        (0, 5, Level::Low),
        (5, 12, Level::High),
        (0, 3, Level::Unknown),
        (3, 8, Level::High),
        (8, 11, Level::Low),
        (11, 12, Level::High),
    ];
    assert_eq!(shown, expected.map(stretch));
}

/// Every cut shows the records that last within it.
#[test]
fn every_cut_of_the_worked_run() {
    let run = Finished::worked();
    for from in 0..12 {
        for to in from + 1..=12 {
            let shown = same(&run, from, to, &format!("{from} to {to}"));
            let lasts = |record: &timing::Record| record.tick < to && record.end > from;
            assert_eq!(shown.len(), run.listing.iter().filter(lasts).count());
        }
    }
}

#[test]
fn a_cut_by_hand() {
    let shown = same(&Finished::worked(), 4, 8, "4 to 8");
    let expected = [(4, 5, Level::Low), (5, 8, Level::High), (4, 8, Level::High)];
    assert_eq!(shown, expected.map(stretch));
}

/// Every value after every other.
const ORDER: [u8; 13] = [0, 1, 2, 3, 1, 3, 0, 2, 1, 0, 3, 2, 0];

/// An input with these values, and nodes that never change.
pub fn every_value() -> Finished {
    let drive: Vec<_> = (0..)
        .step_by(4)
        .zip(ORDER)
        .map(|(tick, value)| (tick, 0, value))
        .collect();
    let constants = [LOW, HIGH, UNKNOWN, NONE].into_iter().zip(1..);
    let modules: Vec<_> = constants
        .map(|(value, node)| constant(value, node, 0))
        .collect();
    let card = sheet(
        &[INPUT, LOW, LOW, LOW, LOW],
        &modules,
        &drive,
        &[0, 1, 2, 3, 4],
    );
    let names = ["a/b.c-d[0]", "low", "high", "größe", "7"];
    Finished::named(&card, 60, "every value", &names)
}

#[test]
fn every_value_after_every_other() {
    let run = every_value();
    let shown = same(&run, 0, 60, "every value");
    let values: Vec<_> = shown.iter().map(|stretch| stretch.value).collect();
    let (changing, still) = values.split_at(ORDER.len());
    assert_eq!(changing, ORDER.map(Level::from_byte));
    assert_eq!(still, Level::ALL.map(Some));
}

/// What generated runs met.
#[derive(Debug, Default)]
struct Met {
    /// Stretches of each value, by its byte.
    values: [usize; 4],
    /// Grey blocks.
    close: usize,
    /// Pictures without one.
    apart: usize,
}

impl Met {
    fn add(&mut self, shown: &[Stretch]) {
        for value in Level::ALL {
            let of_value = shown.iter().filter(|stretch| stretch.value == Some(value));
            self.values[usize::from(value.byte())] += of_value.count();
        }
        let close = shown
            .iter()
            .filter(|stretch| stretch.value.is_none())
            .count();
        self.close += close;
        self.apart += usize::from(close == 0);
    }
}

/// Up to this horizon a tick is so wide that it is read back from its coordinates.
const READABLE: u32 = 5_000;

#[test]
fn generated_runs() {
    for edition in Edition::ALL {
        let seed = 6;
        let mut generator = Generator::of(edition, seed);
        let mut met = Met::default();
        let mut place = 0;
        while place < 3_000 {
            let run = Finished::next(edition, &mut generator);
            let horizon = run.horizon;
            if run.watched.is_empty() || horizon > READABLE {
                continue;
            }
            let whence = format!("{edition:?}, seed {seed}, run {place}");
            met.add(&same(&run, 0, horizon, &whence));
            let [from, to] = [horizon / 3, horizon - horizon / 4];
            same(&run, from, to, &format!("{whence}, cut"));
            place += 1;
        }
        println!("{edition:?}: {met:?}");
        assert!(
            met.values.iter().all(|&stretches| stretches >= 2_000),
            "{met:?}"
        );
        assert!(met.close >= 50 && met.apart >= 2_000, "{met:?}");
    }
}

/// In a run to tick 10,000 a pixel has about 11 ticks. From the first change that is too close to the last
/// there is one block, in place of the edges and of the values between.
#[test]
fn changes_too_close_by_hand() {
    let ticks = [
        0, 2_000, 2_001, 4_000, 4_010, 4_020, 4_030, 6_000, 6_500, 9_990, 9_995,
    ];
    let values = [LOW, HIGH].into_iter().cycle();
    let drive: Vec<_> = ticks
        .into_iter()
        .zip(values)
        .map(|(tick, value)| (tick, 0, value))
        .collect();
    let run = Finished::named(&sheet(&[INPUT], &[], &drive, &[0]), 10_000, "close", &["a"]);
    let expected = [
        (0, 2_000, Some(Level::Low)),
        (2_000, 2_001, None),
        (2_001, 4_000, Some(Level::Low)),
        (4_000, 4_030, None),
        (4_030, 6_000, Some(Level::Low)),
        (6_000, 6_500, Some(Level::High)),
        (6_500, 9_990, Some(Level::Low)),
        (9_990, 9_995, None),
        (9_995, 10_000, Some(Level::Low)),
    ];
    let expected = expected.map(|(from, to, value)| Stretch { from, to, value });
    assert_eq!(same(&run, 0, 10_000, "close"), expected);
    // A line says what grey means and how to see more, where there is grey.
    let key = |from, to| {
        let picture = picture(&run, from, to);
        let key = picture.of("key").next().map(|key| key.text.clone());
        key.expect("there is a key")
    };
    for words in ["Grey", "too close", "--from", "--to"] {
        assert!(key(0, 10_000).contains(words), "{words}");
        assert!(!key(3_990, 4_040).contains(words), "{words}");
    }
    assert_eq!(same(&run, 3_990, 4_040, "cut").len(), 5);
}
