//! Document 02, W-207: a sheet and its conversion run to the same answer and listing, whatever the horizon
//! and the buffer. What 19 and 20 leave is the same, too.

use compare::{converted, count, hex, seed};
use generate::{assert_met, room_for_all, Generator};
use plain::{read, Edition};

use crate::agreed::proved;

/// A sheet that both editions accept, in one of them, and a horizon.
fn accepted(edition: Edition, generator: &mut Generator) -> (Vec<u8>, u32) {
    loop {
        let input = generator.run_input();
        if let Ok(sheet) = read(Edition::First, &input.sheet) {
            return (sheet.encode(edition), input.horizon);
        }
    }
}

fn run_alike(from: Edition, seed: u64) {
    let mut generator = Generator::new(seed);
    let mut met = [0u64; 21];
    for place in 0..count(30_000) {
        let (sheet, horizon) = accepted(from, &mut generator);
        let whence = format!("{from:?}, seed {seed}, run {place}");
        let other = converted(from, &sheet).expect(&whence);
        let whole = room_for_all(from, &sheet, horizon);
        let [.., records] = proved(from, &sheet, horizon, whole, &whence).answer;
        let room = generator.room();
        let length = generator.bytes_of(room, records as usize);
        let [given, converted] = [(from, &sheet), (from.other(), &other)]
            .map(|(edition, sheet)| proved(edition, sheet, horizon, length, &whence));
        assert!(given == converted, "{whence}, {room:?}: {}", hex(&sheet));
        met[given.answer[0] as usize] += 1;
    }
    println!("{from:?}: answers by number, 0 for finished: {met:?}");
    let of_a_sheet: Vec<usize> = (2..=18).collect();
    assert_met(&met, 100, &of_a_sheet, &format!("{from:?}, seed {seed}"));
}

#[test]
fn from_the_first_edition() {
    run_alike(Edition::First, seed());
}

/// Over other sheets.
#[test]
fn from_the_second_edition() {
    run_alike(Edition::Second, !seed());
}
