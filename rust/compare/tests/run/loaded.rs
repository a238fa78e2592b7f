//! Document 02, W-210: sheets whose drive is drawn from a seed are run alike by both simulators, each after
//! a load of its own.

use compare::{count, loaded, seed};
use generate::sheets::records;
use generate::{room_for_all, Generator, LoadInput};
use plain::{read, Edition, Sheet};

use crate::agreed::{agreed, proved};

/// The sheet as the plain simulator loads it, into an output that is exact.
fn plainly_loaded(edition: Edition, input: &LoadInput, length: usize) -> Vec<u8> {
    let mut output = vec![0; length];
    let answer = plain::load(edition, &input.sheet, input.seed, input.n, &mut output);
    assert_eq!(answer.triple(), [0, 0, length as u32]);
    output
}

/// What a stream of such runs met.
#[derive(Debug, Default)]
struct Met {
    finished: u64,
    full_buffers: u64,
    /// Runs in which an input changes after tick 0.
    driven: u64,
}

impl Met {
    fn add(&mut self, number: u32, sheet: &Sheet, listing: &[u8]) {
        self.finished += u64::from(number == 0);
        self.full_buffers += u64::from(number == 19);
        let mut records = records(listing).into_iter();
        let is_driven = records.any(|(tick, node, ..)| tick > 0 && sheet.has_input(node));
        self.driven += u64::from(is_driven);
    }
}

fn generated(edition: Edition) {
    let seed = seed();
    let mut generator = Generator::of(edition, seed);
    let mut met = Met::default();
    for place in 0..count(20_000) {
        let input = generator.load_input();
        let Ok(sheet) = loaded(edition, &input.sheet, input.seed, input.n) else {
            continue;
        };
        let whence = format!("{edition:?}, seed {seed}, run {place}: {input:?}");
        let plainly = plainly_loaded(edition, &input, sheet.len());
        assert!(plainly == sheet, "{whence}");
        let horizon = generator.horizon();
        let whole = room_for_all(edition, &sheet, horizon);
        let [.., records] = proved(edition, &sheet, horizon, whole, &whence).answer;
        let room = generator.room();
        let length = generator.bytes_of(room, records as usize);
        let outcome = agreed(edition, &sheet, horizon, length, &whence);
        let sheet = read(edition, &sheet).expect(&whence);
        met.add(outcome.answer[0], &sheet, &outcome.listing);
    }
    println!("{edition:?}, seed {seed}: {met:?}");
    assert!(met.finished >= 5_000, "seed {seed}: {met:?}");
    assert!(met.full_buffers >= 1_000, "seed {seed}: {met:?}");
    assert!(met.driven >= 1_000, "seed {seed}: {met:?}");
}

#[test]
fn of_the_first_edition() {
    generated(Edition::First);
}

#[test]
fn of_the_second_edition() {
    generated(Edition::Second);
}
